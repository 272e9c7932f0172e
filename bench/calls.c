/*
 * Makes one call of the library so many times, and prints the last answer with the whole output,
 * which held a5 before. calls.rs is the same for plain Rust, which has edition 3 alone and so names
 * none; case.rs says what the other words mean.
 */
#include <stdio.h>
#include <stdlib.h>
#include <string.h>

#include "shaftladder.h"

#define NONCE_BYTES 12
#define DATA_BYTES 16
#define TAG_BYTES 16
#define UNTOUCHED 0xa5

/* No string is longer, and no output has more room. */
#define LONGEST 20480

struct string {
    uint8_t at[LONGEST];
    size_t len;
};

static size_t edition, form;
static struct string key, nonce, data, input, output;

static void usage(void)
{
    fprintf(stderr, "usage: calls EDITION seal|open|damaged FORM KEY_BYTES MESSAGE_BYTES CALLS\n");
    exit(2);
}

static size_t number(const char *word)
{
    char *end;
    unsigned long value = strtoul(word, &end, 10);
    if (*word < '0' || *word > '9' || *end != '\0') {
        usage();
    }
    return value;
}

/* The rule of every string; case.rs has it too. */
static void by_rule(struct string *string, size_t len)
{
    if (len > LONGEST - TAG_BYTES) {
        usage();
    }
    string->len = len;
    for (size_t i = 0; i < len; i++) {
        string->at[i] = (uint8_t)((7 * i + 3) % 256);
    }
}

static uint32_t call(int opens)
{
    return (opens ? shaftladder_open : shaftladder_seal)(
        edition, form, key.at, key.len, nonce.at, nonce.len, data.at, data.len, input.at, input.len,
        TAG_BYTES, output.at, output.len);
}

/* The sealing becomes the opening of what it gives, with the first byte changed. */
static void open_what_is_sealed(uint8_t change)
{
    call(0);
    input = output;
    input.at[0] ^= change;
    memset(output.at, UNTOUCHED, output.len);
}

int main(int count, char **words)
{
    if (count != 7) {
        usage();
    }
    edition = number(words[1]);
    form = number(words[3]);
    by_rule(&key, number(words[4]));
    by_rule(&nonce, NONCE_BYTES);
    by_rule(&data, DATA_BYTES);
    by_rule(&input, number(words[5]));
    output.len = SHAFTLADDER_SEALED_LEN(input.len, TAG_BYTES);
    memset(output.at, UNTOUCHED, output.len);

    int opens = strcmp(words[2], "seal") != 0;
    if (strcmp(words[2], "open") == 0) {
        open_what_is_sealed(0);
    } else if (strcmp(words[2], "damaged") == 0) {
        open_what_is_sealed(1);
    } else if (opens) {
        usage();
    }
    uint32_t answer = 0;
    for (size_t calls = number(words[6]); calls > 0; calls--) {
        answer = call(opens);
    }
    printf("%u ", (unsigned)answer);
    for (size_t i = 0; i < output.len; i++) {
        printf("%02x", output.at[i]);
    }
    printf("\n");
    return 0;
}
