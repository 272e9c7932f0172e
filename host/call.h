/* One call of the library, with what it must answer and leave in the output. */
#ifndef CALL_H
#define CALL_H

#include <stddef.h>
#include <stdint.h>

/* What the output holds everywhere before a call. */
#define FILL 0xa5

/* The longest string that a call is tried with; no output has more room. */
#define LONGEST 20480

struct string {
    const uint8_t *at;
    size_t len;
};

/* The strings that a call reads: the body is the message or the sealed bytes. */
enum part { KEY, NONCE, DATA, BODY, PARTS };

struct call {
    int opens;
    size_t edition, form;
    struct string parts[PARTS];
    size_t tag_len;
    uint32_t number;     /* what it must answer */
    struct string after; /* what the output must be afterwards, all of it */
};

/*
 * Makes the call twice, with its strings and its output right behind pages that may not be
 * touched, and then ending exactly at such pages; and compares the answer, the output, the
 * strings and the neighbours of each, byte for byte.
 */
void call_compare(const struct call *call);

/*
 * Prints how many calls were compared, by their answers; fails where one of the answers 0
 * to 8 and 10 never came.
 */
void call_count(void);

#endif
