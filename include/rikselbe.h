/* Verification of LMS and HSS signatures (RFC 8554, NIST SP 800-208), by a library in which every function is proved.
 * It allocates no memory, makes no system calls, and keeps nothing between calls. It needs memcpy, memmove and memset.
 * docs/EMBEDDING.md says what is proved and how to build it.
 *
 * What a caller must keep, for every call. Nothing checks it, and no promise holds if it is not kept:
 *   - A pointer and the length after it are an array of that many bytes that may be read. The pointer is not NULL,
 *     even if the length is 0. The length is below 2^63.
 *   - `leaf` points to a uint32_t that may be read and written, and that nothing else reads or writes during the call.
 *   - No array changes during a call. `leaf` and `state` lie in none of the arrays.
 */
#ifndef RIKSELBE_H
#define RIKSELBE_H

#include <stddef.h>
#include <stdint.h>

#ifdef __cplusplus
extern "C" {
#endif

/* The answers. The lowest byte says what was found; RIKSELBE_LEVEL is the level of an HSS key at which it was found: 0
 * is the top level, and the only one of an LMS key. The first test that fails decides, in the order of the standard. */
#define RIKSELBE_ACCEPTED UINT32_C(0x00)
/* The signature leads to a root other than its key's: it is not for this message and key. */
#define RIKSELBE_OTHER_ROOT UINT32_C(0x01)
/* The bytes are not an LMS public key. */
#define RIKSELBE_KEY_SHORT UINT32_C(0x11)        /* fewer than the 8 bytes of two typecodes */
#define RIKSELBE_KEY_LMS_CODE UINT32_C(0x12)     /* the LMS typecode is not one from 5 to 14 */
#define RIKSELBE_KEY_OTS_CODE UINT32_C(0x13)     /* the LM-OTS typecode is not one from 1 to 8 */
#define RIKSELBE_KEY_MIXED_WIDTHS UINT32_C(0x14) /* the two typecodes have different hash lengths */
#define RIKSELBE_KEY_LENGTH UINT32_C(0x15)       /* not the length of a key of these typecodes */
/* The bytes are not an LMS signature of the key's typecodes. */
#define RIKSELBE_SIGNATURE_SHORT UINT32_C(0x21)     /* fewer than the 8 bytes of a leaf's number and a typecode */
#define RIKSELBE_SIGNATURE_OTS_CODE UINT32_C(0x22)  /* the LM-OTS typecode is not the key's */
#define RIKSELBE_SIGNATURE_TOO_SHORT UINT32_C(0x23) /* too short for an LM-OTS signature and the LMS typecode */
#define RIKSELBE_SIGNATURE_LMS_CODE UINT32_C(0x24)  /* the LMS typecode is not the key's */
#define RIKSELBE_SIGNATURE_LEAF UINT32_C(0x25)      /* the key's tree has no leaf with this number */
#define RIKSELBE_SIGNATURE_LENGTH UINT32_C(0x26)    /* not the length of a signature of these typecodes */
/* The bytes are not an HSS public key, or not an HSS signature under the key. */
#define RIKSELBE_HSS_KEY_SHORT UINT32_C(0x31)        /* fewer than the 4 bytes of the number of levels */
#define RIKSELBE_HSS_KEY_LEVELS UINT32_C(0x32)       /* the number of levels is not one from 1 to 8 */
#define RIKSELBE_HSS_SIGNATURE_SHORT UINT32_C(0x33)  /* fewer than the 4 bytes of the number of signed keys */
#define RIKSELBE_HSS_SIGNATURE_LEVELS UINT32_C(0x34) /* the number of signed keys is not one less than the levels */

#define RIKSELBE_KIND(answer) ((uint32_t)(answer) & UINT32_C(0xff))
#define RIKSELBE_LEVEL(answer) ((uint32_t)(answer) >> 8)

/* Verifies the signature of a message in memory (RFC 8554, section 5.4.2). The answer is RIKSELBE_ACCEPTED exactly when
 * the bytes are a key, a message and a signature that the standard accepts, and `*leaf` is then the number of the leaf
 * that signed; otherwise the answer is the fault's, and `*leaf` stays as it was. */
uint32_t rikselbe_lms_verify(const uint8_t *key, size_t key_len, const uint8_t *message, size_t message_len,
                             const uint8_t *signature, size_t signature_len, uint32_t *leaf);

/* The same under an HSS key of 1 to 8 levels (RFC 8554, section 6.3). */
uint32_t rikselbe_hss_verify(const uint8_t *key, size_t key_len, const uint8_t *message, size_t message_len,
                             const uint8_t *signature, size_t signature_len);

/* A message that comes in pieces: begin, then update for each piece in order, then finish. The answer of finish is that
 * of rikselbe_lms_verify on the key, the message and the signature, however the message is cut, even into no pieces.
 *
 * The state is in the caller's memory. What a caller must keep besides:
 *   - `state` points to a whole rikselbe_state, aligned as one, that may be read and written, and that nothing else
 *     reads or writes from begin to finish. It is neither copied nor moved in between.
 *   - begin comes first. update and finish take a state on which begin of the same kind, LMS or HSS, was called, and
 *     finish has not been called since. What the state holds before begin and after finish does not matter.
 *   - finish is given the same signature as begin was, byte for byte.
 * The state points at nothing: the key is needed only at begin, and for finish the signature may be read again, into
 * other memory. A verification may be abandoned at any point: it holds nothing but the state's memory.
 * If begin finds a fault, update ignores its piece and finish answers the fault. */
#define RIKSELBE_STATE_SIZE 256

typedef struct rikselbe_state {
    uint64_t memory[RIKSELBE_STATE_SIZE / 8];
} rikselbe_state;

void rikselbe_lms_begin(rikselbe_state *state, const uint8_t *key, size_t key_len, const uint8_t *signature,
                        size_t signature_len);
void rikselbe_lms_update(rikselbe_state *state, const uint8_t *piece, size_t piece_len);
uint32_t rikselbe_lms_finish(rikselbe_state *state, const uint8_t *signature, size_t signature_len, uint32_t *leaf);

/* The same under an HSS key: the answer of finish is that of rikselbe_hss_verify. begin verifies the levels above the
 * last, and takes as long as a whole verification does. */
void rikselbe_hss_begin(rikselbe_state *state, const uint8_t *key, size_t key_len, const uint8_t *signature,
                        size_t signature_len);
void rikselbe_hss_update(rikselbe_state *state, const uint8_t *piece, size_t piece_len);
uint32_t rikselbe_hss_finish(rikselbe_state *state, const uint8_t *signature, size_t signature_len);

#ifdef __cplusplus
}
#endif

#endif
