/* A signed firmware image, as `pack` makes it and `firmware_open` reads it. Numbers are big-endian.
 *
 *     place  bytes
 *         0      4   the letters RKFW
 *         4      4   the version of this format: 1
 *         8      4   the version of the image
 *        12      4   the length of the image
 *        16          the image
 *                    the signature of all that stands before it, an LMS or HSS signature, up to the end
 */
#ifndef FIRMWARE_H
#define FIRMWARE_H

#include <stddef.h>
#include <stdint.h>

#define FIRMWARE_HEADER 16

enum {
    FIRMWARE_ACCEPTED,
    FIRMWARE_SHORT,     /* there is no whole header */
    FIRMWARE_LETTERS,   /* the letters, or the version of the format, are others */
    FIRMWARE_LENGTH,    /* there are fewer bytes than the header says */
    FIRMWARE_SIGNATURE, /* the signature is not accepted */
    FIRMWARE_OLD        /* it is signed, but its version is below the least that may start */
};

typedef struct {
    uint32_t version;
    const uint8_t *image; /* within the file */
    size_t length;
    uint32_t answer; /* of the verifier, if the signature is not accepted: see rikselbe.h */
} firmware;

/* Reads a file of `size` bytes under an LMS key (48 or 56 bytes) or an HSS key (52 or 60 bytes). Only after
 * FIRMWARE_ACCEPTED may the image be started; the loader then stores its version as the next `least`, where nobody can
 * set it back. The file has to lie where nobody can change it from the call until the image runs. */
int firmware_open(const uint8_t *file, size_t size, const uint8_t *key, size_t key_length, uint32_t least, firmware *found);

#endif
