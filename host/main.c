/*
 * The host program: the firmware's side and the camera box's, through C. It takes pairs of
 * files from the second program, a request and its answer in each line, makes every request
 * through include/shaftladder.h, and compares. What a sealing gave is then opened, and
 * opened again damaged in each part. The last line says how many calls were compared.
 */
#define _DEFAULT_SOURCE
#include <signal.h>
#include <string.h>

#include "call.h"
#include "fail.h"
#include "lines.h"
#include "shaftladder.h"

/* A bit to change: another one each time, all over a string of so many bytes. */
static size_t next_bit(size_t bytes)
{
    static size_t turn;
    turn += 2654435761u; /* odd, and without a pattern in its bits */
    return turn / 16 % (8 * bytes);
}

/*
 * The opening with one bit changed, in `len` bytes of the part from `from` on, and with as much
 * spare room as the tag has bytes: it must be refused, with zeros for the message and no more.
 */
static void compare_damaged(const struct call *opening, enum part part, size_t from, size_t len)
{
    static uint8_t bytes[LONGEST], after[LONGEST];
    struct call damaged = *opening;
    if (len == 0) {
        return;
    }
    size_t bit = next_bit(len);
    memcpy(bytes, opening->parts[part].at, opening->parts[part].len);
    bytes[from + bit / 8] ^= (uint8_t)(1u << bit % 8);
    memset(after, 0, opening->after.len);
    memset(after + opening->after.len, FILL, opening->tag_len);
    damaged.parts[part].at = bytes;
    damaged.number = SHAFTLADDER_FORGED;
    damaged.after.at = after;
    damaged.after.len += opening->tag_len;
    call_compare(&damaged);
}

/*
 * What the sealing gave, opened: the message comes back, and nothing once a bit of any part is
 * changed. The sealing was compared, so that what it gave is what it had to give.
 */
static void compare_opening(const struct call *sealing)
{
    size_t message_len = sealing->parts[BODY].len;
    struct call opening = *sealing;
    opening.opens = 1;
    opening.parts[BODY].at = sealing->after.at;
    opening.parts[BODY].len = SHAFTLADDER_SEALED_LEN(message_len, sealing->tag_len);
    opening.after = sealing->parts[BODY];
    call_compare(&opening);
    compare_damaged(&opening, KEY, 0, opening.parts[KEY].len);
    compare_damaged(&opening, NONCE, 0, opening.parts[NONCE].len);
    compare_damaged(&opening, DATA, 0, opening.parts[DATA].len);
    compare_damaged(&opening, BODY, 0, message_len);
    compare_damaged(&opening, BODY, message_len, opening.tag_len);
}

static void compare(const struct call *call)
{
    call_compare(call);
    if (!call->opens && call->number == SHAFTLADDER_DONE) {
        compare_opening(call);
    }
}

/*
 * A page was touched that may not be. The signal comes out of a call, and never out of a print,
 * so that printing is safe.
 */
static void touched(int number)
{
    (void)number;
    differ("the call touched what lies outside its buffers");
}

int main(int count, char **words)
{
    signal(SIGSEGV, touched);
    if (count < 3 || count % 2 == 0) {
        fail("usage: host REQUESTS ANSWERS [REQUESTS ANSWERS]...");
    }
    for (int i = 1; i < count; i += 2) {
        lines_each(words[i], words[i + 1], compare);
    }
    call_count();
    return 0;
}
