/*
 * Shaftladder: the sealed link between a telescope's camera box and its mount.
 *
 * The camera box seals a list of corrections with shaftladder_seal(). The mount opens it
 * with shaftladder_open(), which accepts bytes exactly if a message seals to them with the
 * edition, form, key, nonce, associated data and tag length of the call, and then gives that
 * message. Both are AES-OTR, in the edition that the call names. Sealed bytes are the
 * ciphertext, exactly as long as the message, with the tag directly behind it.
 *
 * A call always returns. Where the caller keeps the duties below, its answer and every byte
 * of the output afterwards are decided by its arguments, and proved to be what this file
 * says.
 */
#ifndef SHAFTLADDER_H
#define SHAFTLADDER_H

#include <stddef.h>
#include <stdint.h>

#ifdef __cplusplus
extern "C" {
#endif

/*
 * ANSWERS
 *
 * The number that a call returns is its whole answer. A call checks the edition, the form,
 * the key, the nonce, the tag length, the associated data, the length and the room, in this
 * order, and the first that is wrong is the answer. Opening then looks at the tag. There is
 * no 9 here, which belongs to sealing in parts, no 11, which belongs to carrying over, and
 * no 13, which belongs to plans: none of these has a call from C.
 *
 * What the output holds afterwards:
 *   SHAFTLADDER_DONE     first the result; the bytes behind it are untouched.
 *   SHAFTLADDER_FORGED   first zeros, as many as the message would have bytes; the bytes
 *                        behind them are untouched.
 *   every other          all of it is untouched.
 */
enum shaftladder_answer {
    SHAFTLADDER_DONE = 0,
    SHAFTLADDER_BAD_KEY = 1,     /* the key does not have 16, 24 or 32 bytes */
    SHAFTLADDER_BAD_NONCE = 2,   /* the nonce does not have 1 to 15 bytes */
    SHAFTLADDER_BAD_TAG = 3,     /* the tag length is not 4 to 16 */
    SHAFTLADDER_BAD_DATA = 4,    /* the associated data has over 4,096 bytes */
    SHAFTLADDER_BAD_LENGTH = 5,  /* sealing: the message has over 16,384 bytes; opening: there
                                    are fewer sealed bytes than tag_len, or over
                                    16,384 + tag_len */
    SHAFTLADDER_NO_ROOM = 6,     /* the output is too short */
    SHAFTLADDER_FORGED = 7,      /* opening alone: the tag does not match; no message seals to
                                    these bytes */
    SHAFTLADDER_BAD_FORM = 8,    /* the form is neither of the two, or edition 1 is named with
                                    the serial form; checked next after the edition */
    SHAFTLADDER_BAD_EDITION = 10 /* the edition is neither 1 nor 3; checked before all others */
};

/*
 * Which AES-OTR. Edition 1 is AES-OTR v1, under which six seasons of night logs were sealed;
 * edition 3 is AES-OTR v3.1. What one edition sealed is opened in that edition. New lists
 * are sealed with edition 3.
 */
enum shaftladder_edition { SHAFTLADDER_EDITION_1 = 1, SHAFTLADDER_EDITION_3 = 3 };

/*
 * How the associated data is taken in. What one form sealed is opened in that form. Edition
 * 1 has the parallel form alone.
 */
enum shaftladder_form { SHAFTLADDER_PARALLEL = 0, SHAFTLADDER_SERIAL = 1 };

/* LIMITS, in bytes. A key has one of three lengths. */
#define SHAFTLADDER_KEY_128 16
#define SHAFTLADDER_KEY_192 24
#define SHAFTLADDER_KEY_256 32
#define SHAFTLADDER_NONCE_MIN 1
#define SHAFTLADDER_NONCE_MAX 15
#define SHAFTLADDER_TAG_MIN 4
#define SHAFTLADDER_TAG_MAX 16
#define SHAFTLADDER_DATA_MAX 4096
#define SHAFTLADDER_MESSAGE_MAX 16384
#define SHAFTLADDER_SEALED_MAX (SHAFTLADDER_MESSAGE_MAX + SHAFTLADDER_TAG_MAX)

/*
 * ROOM that the output needs, sealing and opening, which is also what a call that is done
 * has written. More room does no harm. SHAFTLADDER_MESSAGE_LEN means nothing where
 * sealed_len is below tag_len.
 */
#define SHAFTLADDER_SEALED_LEN(message_len, tag_len) ((message_len) + (tag_len))
#define SHAFTLADDER_MESSAGE_LEN(sealed_len, tag_len) ((sealed_len) - (tag_len))

/*
 * STACK that a call needs at most, in bytes, its arguments included. Measured and not
 * proved: calls at the seam lengths, in each edition and form and with every key length, ran
 * on a painted stack, and of the paint 6,120 bytes at most were gone (host/stack.c). glibc's
 * memcpy and memset are in it, bound beforehand: a dynamic linker that binds them at their
 * first call needs more.
 */
#define SHAFTLADDER_STACK 6656

/*
 * DUTIES OF THE CALLER. No call can check them. Where one of these is not kept, nothing is
 * promised of the call:
 *
 * - The output overlaps no input: not the key, the nonce, the associated data, the message
 *   or the sealed bytes. So there is no sealing or opening in place. Inputs may overlap
 *   each other.
 * - Through the whole call each input pointer is valid for reading as many bytes as the
 *   length beside it says, and out for reading and writing out_len bytes. Meanwhile nobody
 *   else, be it a thread, an interrupt or a device, writes to any of these or reads the
 *   output, which may hold a message before its tag is known to match.
 * - A pointer beside a length of 0 may be any pointer, null too: nothing is read or written
 *   through it. Beside any other length it is not null.
 * - SHAFTLADDER_STACK bytes of stack are free.
 *
 * Where one of these is not kept, the bytes are as promised, and no longer safe:
 *
 * - A nonce is never used twice under a key. Two messages sealed under one nonce give away
 *   what they have in common, and help others to forge. The library takes the nonce that it
 *   is handed, and keeps no record.
 * - A key is kept to one edition, one form and one tag length.
 * - With edition 1 a mount keeps to one tag length for a key, and refuses any other itself
 *   before it opens. Edition 1 does not bind the tag length, and this is proved: what it
 *   seals with a tag of t bytes is the ciphertext and the first t tag bytes of what it seals
 *   with 16. So whoever accepts tags of several lengths under one key accepts, at the
 *   shortest, any record cut down to it, and a forger needs to guess only the shortest tag,
 *   with 4 bytes one in 2^32 a try, for a list of any length.
 * - Whether a list comes twice, or in another order than it was sealed in, is the caller's
 *   to see: no call can tell.
 */

/*
 * WHO OWNS WHAT. Every buffer is the caller's. A call keeps no pointer, allocates nothing
 * and changes nothing but the output and its own stack. There is no state, so calls may run
 * side by side. Of the C library they use memcpy and memset. The stack is not cleared:
 * bytes of the key and of the message may remain there. Nothing is promised of a call's
 * time, and tables are read by secret bytes.
 */

/*
 * Seals message, which may be empty, under key and nonce. The associated data ad is not
 * sealed but bound to the message: to open takes the same. out needs
 * SHAFTLADDER_SEALED_LEN(message_len, tag_len) bytes.
 */
uint32_t shaftladder_seal(size_t edition, size_t form,
                          const uint8_t *key, size_t key_len,
                          const uint8_t *nonce, size_t nonce_len,
                          const uint8_t *ad, size_t ad_len,
                          const uint8_t *message, size_t message_len,
                          size_t tag_len,
                          uint8_t *out, size_t out_len);

/*
 * Opens what shaftladder_seal() gave, and gives the message. out needs
 * SHAFTLADDER_MESSAGE_LEN(sealed_len, tag_len) bytes.
 */
uint32_t shaftladder_open(size_t edition, size_t form,
                          const uint8_t *key, size_t key_len,
                          const uint8_t *nonce, size_t nonce_len,
                          const uint8_t *ad, size_t ad_len,
                          const uint8_t *sealed, size_t sealed_len,
                          size_t tag_len,
                          uint8_t *out, size_t out_len);

#ifdef __cplusplus
}
#endif

#endif
