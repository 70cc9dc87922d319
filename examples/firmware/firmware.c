/* Reads a signed firmware image. It needs no C library but what rikselbe.h names, and allocates no memory. */
#include "firmware.h"

#include "rikselbe.h"

static uint32_t number(const uint8_t *at) {
    return (uint32_t)at[0] << 24 | (uint32_t)at[1] << 16 | (uint32_t)at[2] << 8 | at[3];
}

int firmware_open(const uint8_t *file, size_t size, const uint8_t *key, size_t key_length, uint32_t least, firmware *found) {
    found->version = found->answer = 0;
    found->image = NULL;
    found->length = 0;
    if (size < FIRMWARE_HEADER)
        return FIRMWARE_SHORT;
    if (number(file) != 0x524b4657 || number(file + 4) != 1)
        return FIRMWARE_LETTERS;
    if (number(file + 12) > size - FIRMWARE_HEADER)
        return FIRMWARE_LENGTH;
    size_t signed_length = FIRMWARE_HEADER + (size_t)number(file + 12), signature_length = size - signed_length;
    const uint8_t *signature = file + signed_length;
    /* an LMS key has 8 + 16 + n bytes, with n = 24 or 32; an HSS key has four more */
    if (key_length % 8 == 0) {
        uint32_t leaf;
        found->answer = rikselbe_lms_verify(key, key_length, file, signed_length, signature, signature_length, &leaf);
    } else {
        found->answer = rikselbe_hss_verify(key, key_length, file, signed_length, signature, signature_length);
    }
    if (found->answer != RIKSELBE_ACCEPTED)
        return FIRMWARE_SIGNATURE;
    if (number(file + 8) < least)
        return FIRMWARE_OLD;
    found->version = number(file + 8);
    found->image = file + FIRMWARE_HEADER;
    found->length = number(file + 12);
    return FIRMWARE_ACCEPTED;
}
