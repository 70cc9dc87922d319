/* Opens a signed firmware image as a loader does: load KEY FILE LEAST. Its status is what firmware_open answers, or 9
 * if a file cannot be read.
 *
 *     cc -I include examples/firmware/load.c examples/firmware/firmware.c crates/rikselbe_c/out/librikselbe_c.a -o load
 */
#include <stdio.h>
#include <stdlib.h>

#include "firmware.h"

/* Reads a whole file; its bytes lie in memory of exactly that length. */
static uint8_t *read_file(const char *name, size_t *length) {
    FILE *file = fopen(name, "rb");
    if (file == NULL || fseek(file, 0, SEEK_END) != 0) {
        perror(name);
        exit(9);
    }
    *length = (size_t)ftell(file);
    rewind(file);
    uint8_t *bytes = malloc(*length + (*length == 0));
    if (bytes == NULL || fread(bytes, 1, *length, file) != *length) {
        perror(name);
        exit(9);
    }
    fclose(file);
    return bytes;
}

int main(int count, char **words) {
    static const char *const said[] = {"accepted", "short", "other letters", "shorter than its header says",
                                       "the signature is not accepted", "an old version"};
    if (count != 4) {
        fprintf(stderr, "usage: load KEY FILE LEAST\n");
        return 9;
    }
    size_t key_length, size;
    uint8_t *key = read_file(words[1], &key_length), *file = read_file(words[2], &size);
    firmware found;
    int answer = firmware_open(file, size, key, key_length, (uint32_t)strtoul(words[3], NULL, 10), &found);
    if (answer == FIRMWARE_ACCEPTED)
        printf("accepted version %lu with %lu bytes\n", (unsigned long)found.version, (unsigned long)found.length);
    else
        printf("refused: %s\n", said[answer]);
    free(key);
    free(file);
    return answer;
}
