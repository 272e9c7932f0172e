/*
 * Measures the stack that a call needs, and holds it to what the header says. A call runs
 * on a stack of its own, which was painted before; what is no longer painted afterwards was
 * used. Counted from the frame of the function that calls, so that the arguments count too.
 */
#define _DEFAULT_SOURCE
#include <stdio.h>
#include <string.h>
#include <ucontext.h>

#include "fail.h"
#include "pages.h"
#include "shaftladder.h"

#define STACK 65536
#define TAG SHAFTLADDER_TAG_MAX
#define COUNT(list) (sizeof(list) / sizeof(list)[0])

/* Seam lengths of the message and of the associated data. */
static const size_t messages[] = {
    0, 1, 15, 16, 17, 31, 32, 33, 48, SHAFTLADDER_MESSAGE_MAX - 1, SHAFTLADDER_MESSAGE_MAX};
static const size_t datas[] = {0, 1, 15, 16, 17, SHAFTLADDER_DATA_MAX};

static const struct {
    size_t edition, form;
} modes[] = {
    {SHAFTLADDER_EDITION_3, SHAFTLADDER_PARALLEL},
    {SHAFTLADDER_EDITION_3, SHAFTLADDER_SERIAL},
    {SHAFTLADDER_EDITION_1, SHAFTLADDER_PARALLEL},
};

/*
 * Key, nonce, associated data and message are zeros: what they hold does not matter here.
 */
static const uint8_t zeros[SHAFTLADDER_MESSAGE_MAX];
static uint8_t out[SHAFTLADDER_SEALED_MAX];

/* The call, set before it is entered. */
static int opens;
static size_t edition, form, key_len, data_len, body_len;
static const uint8_t *body;
static uint32_t number;

static const uint8_t *frame;
static ucontext_t outside;

static void enter(void)
{
    frame = __builtin_frame_address(0);
    number = (opens ? shaftladder_open : shaftladder_seal)(edition, form, zeros, key_len, zeros,
                                                           SHAFTLADDER_NONCE_MAX, zeros, data_len,
                                                           body, body_len, TAG, out, sizeof out);
}

static size_t used(const struct pages *stack, int paint)
{
    ucontext_t inside;
    memset(stack->start, paint, stack->size);
    getcontext(&inside);
    inside.uc_stack.ss_sp = stack->start;
    inside.uc_stack.ss_size = stack->size;
    inside.uc_link = &outside;
    makecontext(&inside, enter, 0);
    if (swapcontext(&outside, &inside) != 0) {
        fail("the call could not be given a stack of its own");
    }
    const uint8_t *lowest = stack->start;
    while (*lowest == paint) {
        lowest++;
    }
    return (size_t)(frame - lowest);
}

/* Painted with one byte and then with another, as a call may write the paint itself. */
static void measure(const struct pages *stack, uint32_t expected, size_t *most)
{
    static const int paints[] = {0x5a, 0xa5};
    for (size_t i = 0; i < COUNT(paints); i++) {
        size_t bytes = used(stack, paints[i]);
        if (number != expected) {
            fail("answered %u, and must answer %u", (unsigned)number, (unsigned)expected);
        }
        if (bytes > *most) {
            *most = bytes;
        }
    }
}

/* Sealing, opening what came out, and opening it with the last bit of the tag changed. */
static void exchange(const struct pages *stack, size_t message_len, size_t *most)
{
    static uint8_t sealed[sizeof out];
    opens = 0;
    body = zeros;
    body_len = message_len;
    measure(stack, SHAFTLADDER_DONE, most);
    opens = 1;
    body = memcpy(sealed, out, sizeof out);
    body_len = SHAFTLADDER_SEALED_LEN(message_len, TAG);
    measure(stack, SHAFTLADDER_DONE, most);
    sealed[body_len - 1] ^= 1;
    measure(stack, SHAFTLADDER_FORGED, most);
}

int main(void)
{
    struct pages stack = pages_make(STACK);
    size_t most = 0;
    for (size_t mode = 0; mode < COUNT(modes); mode++) {
        edition = modes[mode].edition;
        form = modes[mode].form;
        for (key_len = SHAFTLADDER_KEY_128; key_len <= SHAFTLADDER_KEY_256; key_len += 8) {
            for (size_t i = 0; i < COUNT(datas); i++) {
                data_len = datas[i];
                for (size_t j = 0; j < COUNT(messages); j++) {
                    exchange(&stack, messages[j], &most);
                }
            }
        }
    }
    printf("stack of a call: at most %zu bytes; the header says %d\n", most, SHAFTLADDER_STACK);
    if (most > SHAFTLADDER_STACK) {
        differ("a call needs more than the header says");
    }
    return 0;
}
