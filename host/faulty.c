/*
 * The library with a fault, to see that the host program finds it. The host is compiled
 * with FAULT, the number of one below, and with shaftladder_seal and shaftladder_open named
 * faulty_seal and faulty_open.
 */
#undef shaftladder_seal
#undef shaftladder_open
#include "shaftladder.h"

#define PARAMETERS                                                                                 \
    size_t edition, size_t form, const uint8_t *key, size_t key_len, const uint8_t *nonce,         \
        size_t nonce_len, const uint8_t *ad, size_t ad_len, const uint8_t *body, size_t body_len,  \
        size_t tag_len, uint8_t *out, size_t out_len
#define ARGUMENTS                                                                                  \
    edition, form, key, key_len, nonce, nonce_len, ad, ad_len, body, body_len, tag_len, out, out_len

uint32_t faulty_seal(PARAMETERS);
uint32_t faulty_open(PARAMETERS);

/* What comes before a call that is right otherwise. */
static void mistake(size_t *edition, size_t *form)
{
    size_t named = *edition;
    switch (FAULT) {
    case 9: /* takes edition 1 for edition 3 where its form is sound */
        if (named == SHAFTLADDER_EDITION_1 && *form == SHAFTLADDER_PARALLEL) {
            *edition = SHAFTLADDER_EDITION_3;
        }
        break;
    case 10: /* takes the form first */
        *edition = *form;
        *form = named;
        break;
    case 11: /* keeps 32 bits of the edition */
        *edition = (uint32_t)named;
        break;
    case 12: /* with edition 1, takes the serial form for the parallel one */
        if (named == SHAFTLADDER_EDITION_1 && *form == SHAFTLADDER_SERIAL) {
            *form = SHAFTLADDER_PARALLEL;
        }
        break;
    default: /* comes after it */
        break;
    }
}

/* What comes after a call that was right. */
static uint32_t spoilt(uint32_t number, const uint8_t *key, const uint8_t *body, size_t body_len,
                       uint8_t *out, size_t out_len)
{
    static volatile uint8_t seen;
    switch (FAULT) {
    case 1: /* reads the byte behind the message or the sealed bytes */
        seen = body[body_len];
        break;
    case 2: /* reads the byte in front of them */
        seen = body[-1];
        break;
    case 3: /* writes the byte behind the output */
        out[out_len] = seen;
        break;
    case 4: /* writes the byte in front of it */
        out[-1] = seen;
        break;
    case 5: /* clears a byte of the key */
        *(uint8_t *)key = 0;
        break;
    case 6: /* leaves a byte of what was forged */
        if (number == SHAFTLADDER_FORGED && out_len > 0) {
            out[0] = 1;
        }
        break;
    case 7: /* writes to the output though it refuses */
        if (number == SHAFTLADDER_BAD_TAG && out_len > 0) {
            out[0] = 0;
        }
        break;
    case 8: /* keeps three bits of the number */
        number %= 8;
        break;
    default: /* came before it */
        break;
    }
    return number;
}

uint32_t faulty_seal(PARAMETERS)
{
    mistake(&edition, &form);
    return spoilt(shaftladder_seal(ARGUMENTS), key, body, body_len, out, out_len);
}

uint32_t faulty_open(PARAMETERS)
{
    mistake(&edition, &form);
    return spoilt(shaftladder_open(ARGUMENTS), key, body, body_len, out, out_len);
}
