/*
 * Holds the header's names to the library: at each limit a call goes through, and one beyond it
 * gives the refusal that is named so.
 */
#include <stdio.h>

#include "fail.h"
#include "shaftladder.h"

/* The numbers of a call, the lengths of its strings, which are zeros, and what it must answer. */
struct row {
    size_t edition, form, key, nonce, ad, body, tag, room;
    uint32_t answer;
};

#define FIRST SHAFTLADDER_EDITION_1
#define THIRD SHAFTLADDER_EDITION_3
#define SERIAL SHAFTLADDER_SERIAL
#define KEY SHAFTLADDER_KEY_128
#define NONCE SHAFTLADDER_NONCE_MAX
#define DATA SHAFTLADDER_DATA_MAX
#define MESSAGE SHAFTLADDER_MESSAGE_MAX
#define SEALED SHAFTLADDER_SEALED_MAX
#define TAG SHAFTLADDER_TAG_MAX

static const struct row sealings[] = {
    {THIRD, SHAFTLADDER_PARALLEL, KEY, NONCE, DATA, MESSAGE, TAG, SEALED, SHAFTLADDER_DONE},
    {THIRD, SERIAL, SHAFTLADDER_KEY_192, SHAFTLADDER_NONCE_MIN, 0, 0, SHAFTLADDER_TAG_MIN,
     SHAFTLADDER_SEALED_LEN(0, SHAFTLADDER_TAG_MIN), SHAFTLADDER_DONE},
    {THIRD, SERIAL, SHAFTLADDER_KEY_256, NONCE, DATA, MESSAGE, TAG, SEALED, SHAFTLADDER_DONE},
    {FIRST, SHAFTLADDER_PARALLEL, KEY, NONCE, DATA, MESSAGE, TAG, SEALED, SHAFTLADDER_DONE},
    {FIRST, 0, KEY, SHAFTLADDER_NONCE_MIN, 0, 0, SHAFTLADDER_TAG_MIN,
     SHAFTLADDER_SEALED_LEN(0, SHAFTLADDER_TAG_MIN), SHAFTLADDER_DONE},
    {FIRST - 1, 0, KEY, NONCE, DATA, MESSAGE, TAG, SEALED, SHAFTLADDER_BAD_EDITION},
    {FIRST + 1, 0, KEY, NONCE, DATA, MESSAGE, TAG, SEALED, SHAFTLADDER_BAD_EDITION},
    {THIRD + 1, 0, KEY, NONCE, DATA, MESSAGE, TAG, SEALED, SHAFTLADDER_BAD_EDITION},
    {THIRD + 1, SERIAL + 1, KEY, NONCE, DATA, MESSAGE, TAG, SEALED, SHAFTLADDER_BAD_EDITION},
    {THIRD, SERIAL + 1, KEY, NONCE, DATA, MESSAGE, TAG, SEALED, SHAFTLADDER_BAD_FORM},
    {FIRST, SERIAL, KEY, NONCE, DATA, MESSAGE, TAG, SEALED, SHAFTLADDER_BAD_FORM},
    {FIRST, SERIAL, KEY + 1, NONCE, DATA, MESSAGE, TAG, SEALED, SHAFTLADDER_BAD_FORM},
    {THIRD, 0, SHAFTLADDER_KEY_128 - 1, NONCE, DATA, MESSAGE, TAG, SEALED, SHAFTLADDER_BAD_KEY},
    {THIRD, 0, SHAFTLADDER_KEY_128 + 1, NONCE, DATA, MESSAGE, TAG, SEALED, SHAFTLADDER_BAD_KEY},
    {THIRD, 0, SHAFTLADDER_KEY_192 - 1, NONCE, DATA, MESSAGE, TAG, SEALED, SHAFTLADDER_BAD_KEY},
    {THIRD, 0, SHAFTLADDER_KEY_192 + 1, NONCE, DATA, MESSAGE, TAG, SEALED, SHAFTLADDER_BAD_KEY},
    {THIRD, 0, SHAFTLADDER_KEY_256 - 1, NONCE, DATA, MESSAGE, TAG, SEALED, SHAFTLADDER_BAD_KEY},
    {THIRD, 0, SHAFTLADDER_KEY_256 + 1, NONCE, DATA, MESSAGE, TAG, SEALED, SHAFTLADDER_BAD_KEY},
    {THIRD, 0, KEY, SHAFTLADDER_NONCE_MIN - 1, DATA, MESSAGE, TAG, SEALED, SHAFTLADDER_BAD_NONCE},
    {THIRD, 0, KEY, SHAFTLADDER_NONCE_MAX + 1, DATA, MESSAGE, TAG, SEALED, SHAFTLADDER_BAD_NONCE},
    {FIRST, 0, KEY, SHAFTLADDER_NONCE_MAX + 1, DATA, MESSAGE, TAG, SEALED, SHAFTLADDER_BAD_NONCE},
    {THIRD, 0, KEY, NONCE, DATA, MESSAGE, SHAFTLADDER_TAG_MIN - 1, SEALED, SHAFTLADDER_BAD_TAG},
    {THIRD, 0, KEY, NONCE, DATA, MESSAGE, SHAFTLADDER_TAG_MAX + 1, SEALED, SHAFTLADDER_BAD_TAG},
    {THIRD, 0, KEY, NONCE, SHAFTLADDER_DATA_MAX + 1, MESSAGE, TAG, SEALED, SHAFTLADDER_BAD_DATA},
    {THIRD, 0, KEY, NONCE, DATA, SHAFTLADDER_MESSAGE_MAX + 1, TAG, SEALED, SHAFTLADDER_BAD_LENGTH},
    {THIRD, 0, KEY, NONCE, DATA, 1, TAG, SHAFTLADDER_SEALED_LEN(1, TAG) - 1, SHAFTLADDER_NO_ROOM},
};

static const struct row openings[] = {
    {THIRD, 0, KEY, NONCE, DATA, SHAFTLADDER_SEALED_MAX, TAG, MESSAGE, SHAFTLADDER_FORGED},
    {FIRST, 0, KEY, NONCE, DATA, SHAFTLADDER_SEALED_MAX, TAG, MESSAGE, SHAFTLADDER_FORGED},
    {THIRD, 0, KEY, NONCE, DATA, TAG, TAG, SHAFTLADDER_MESSAGE_LEN(TAG, TAG), SHAFTLADDER_FORGED},
    {FIRST + 1, 0, KEY, NONCE, DATA, SEALED, TAG, MESSAGE, SHAFTLADDER_BAD_EDITION},
    {FIRST, SERIAL, KEY, NONCE, DATA, SEALED, TAG, MESSAGE, SHAFTLADDER_BAD_FORM},
    {THIRD, 0, KEY, NONCE, DATA, SHAFTLADDER_SEALED_MAX + 1, TAG, MESSAGE, SHAFTLADDER_BAD_LENGTH},
    {THIRD, 0, KEY, NONCE, DATA, TAG - 1, TAG, MESSAGE, SHAFTLADDER_BAD_LENGTH},
    {THIRD, 0, KEY, NONCE, DATA, 20, TAG, SHAFTLADDER_MESSAGE_LEN(20, TAG) - 1,
     SHAFTLADDER_NO_ROOM},
};

static void check(int opens, const struct row *rows, size_t count)
{
    static const uint8_t zeros[SEALED + 1];
    static uint8_t out[SEALED];
    for (size_t i = 0; i < count; i++) {
        struct row r = rows[i];
        uint32_t answer = (opens ? shaftladder_open : shaftladder_seal)(
            r.edition, r.form, zeros, r.key, zeros, r.nonce, zeros, r.ad, zeros, r.body, r.tag, out,
            r.room);
        if (answer != r.answer) {
            differ("%s %zu: answered %u, and must answer %u", opens ? "opening" : "sealing", i,
                   (unsigned)answer, (unsigned)r.answer);
        }
    }
}

int main(void)
{
    size_t sealed = sizeof sealings / sizeof sealings[0];
    size_t opened = sizeof openings / sizeof openings[0];
    check(0, sealings, sealed);
    check(1, openings, opened);
    printf("limits as the header names them: %zu calls\n", sealed + opened);
    return 0;
}
