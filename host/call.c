#include "call.h"

#include <stdio.h>
#include <string.h>

#include "fail.h"
#include "pages.h"
#include "shaftladder.h"

#define ANSWERS (SHAFTLADDER_BAD_EDITION + 1)
/* The one number below that no call from C answers. */
#define ANSWER_IN_PARTS 9

static const char *const names[PARTS] = {"key", "nonce", "associated data",
                                         "message or sealed bytes"};

/* Where calls find their strings and their output. */
static struct pages inputs[PARTS], output;
static uint8_t fill[LONGEST];

static unsigned long compared[ANSWERS];

static void make_pages(void)
{
    for (int i = 0; i < PARTS; i++) {
        inputs[i] = pages_make(i == BODY ? LONGEST : SHAFTLADDER_DATA_MAX + 1);
    }
    output = pages_make(LONGEST);
    memset(fill, FILL, sizeof fill);
}

static void check(const char *name, const struct pages *pages)
{
    ptrdiff_t where;
    if (!pages_hold(pages, &where)) {
        differ("%s: the byte at %td is not what it must be", name, where);
    }
}

static void compare_at(const struct call *call, enum place place)
{
    const struct string *parts = call->parts;
    const uint8_t *lent[PARTS];
    for (int i = 0; i < PARTS; i++) {
        lent[i] = pages_lend(&inputs[i], place, parts[i].at, parts[i].len);
    }
    uint8_t *out = pages_lend(&output, place, fill, call->after.len);
    uint32_t number = (call->opens ? shaftladder_open : shaftladder_seal)(
        call->edition, call->form, lent[KEY], parts[KEY].len, lent[NONCE], parts[NONCE].len,
        lent[DATA], parts[DATA].len, lent[BODY], parts[BODY].len, call->tag_len, out,
        call->after.len);
    if (number != call->number) {
        differ("answered %u, and must answer %u", (unsigned)number, (unsigned)call->number);
    }
    pages_expect(&output, call->after.at);
    check("output", &output);
    pages_return(&output);
    for (int i = 0; i < PARTS; i++) {
        check(names[i], &inputs[i]);
        pages_return(&inputs[i]);
    }
    compared[number]++;
}

void call_compare(const struct call *call)
{
    if (output.size == 0) {
        make_pages();
    }
    compare_at(call, BEGINS);
    compare_at(call, ENDS);
}

void call_count(void)
{
    unsigned long all = 0;
    for (int i = 0; i < ANSWERS; i++) {
        if (i == ANSWER_IN_PARTS) {
            continue;
        }
        printf("answered %d: %lu\n", i, compared[i]);
        all += compared[i];
        if (compared[i] == 0) {
            fail("no call answered %d", i);
        }
    }
    printf("calls compared: %lu\n", all);
}
