/* Verifies a file, piece by piece, under an LMS key: verify KEY MESSAGE SIGNATURE; or under an HSS key: verify hss KEY
 * MESSAGE SIGNATURE. Its status is 0 if the signature is accepted, 1 if it is not, 2 if a file cannot be read. */
#include <stdio.h>
#include <stdlib.h>
#include <string.h>

#include "rikselbe.h"

/* The longest key and the longest signature, of eight HSS levels, each with one more byte to notice a longer file. */
static uint8_t key[60 + 1], signature[74988 + 1], piece[4096];

static FILE *open_file(const char *name) {
    FILE *file = fopen(name, "rb");
    if (file == NULL) {
        perror(name);
        exit(2);
    }
    return file;
}

static size_t read_file(const char *name, uint8_t *bytes, size_t room) {
    FILE *file = open_file(name);
    size_t length = fread(bytes, 1, room, file);
    if (ferror(file)) {
        perror(name);
        exit(2);
    }
    fclose(file);
    return length;
}

int main(int count, char **words) {
    int hss = count > 1 && strcmp(words[1], "hss") == 0;
    if (count - hss != 4) {
        fprintf(stderr, "usage: verify [hss] KEY MESSAGE SIGNATURE\n");
        return 2;
    }
    words += hss;
    size_t key_len = read_file(words[1], key, sizeof key);
    size_t signature_len = read_file(words[3], signature, sizeof signature);
    rikselbe_state state;
    (hss ? rikselbe_hss_begin : rikselbe_lms_begin)(&state, key, key_len, signature, signature_len);
    FILE *message = open_file(words[2]);
    for (size_t length; (length = fread(piece, 1, sizeof piece, message)) > 0;)
        (hss ? rikselbe_hss_update : rikselbe_lms_update)(&state, piece, length);
    uint32_t leaf = 0;
    uint32_t answer = hss ? rikselbe_hss_finish(&state, signature, signature_len)
                          : rikselbe_lms_finish(&state, signature, signature_len, &leaf);
    if (ferror(message)) {
        perror(words[2]);
        return 2;
    }
    if (answer == RIKSELBE_ACCEPTED)
        puts("accepted");
    else
        printf("not accepted: 0x%03x\n", (unsigned)answer);
    return answer != RIKSELBE_ACCEPTED;
}
