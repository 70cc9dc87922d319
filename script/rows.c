/* Runs the rows that script/embedded.py packs through every call of rikselbe.h, whole and cut in several ways, prints
 * each answer that is not the right one, and how many there were. Its status is 0 if all were right.
 *
 * The rows are in the file that it is given. If ROWS is defined when it is compiled, the rows in the file of that name
 * are in the program itself, in its section SECTION; it then needs neither a file nor memory for them. */
#include <stdio.h>
#include <stdlib.h>
#include <string.h>

#include "rikselbe.h"

#ifdef ROWS
#ifndef SECTION
#define SECTION ".rodata"
#endif
extern const uint8_t rows[];
__asm__(".section " SECTION ", \"a\"\n.balign 8\n.globl rows\nrows:\n.incbin \"" ROWS "\"\n.text\n");

static const uint8_t *rows_of(int count, char **words) {
    (void)count;
    (void)words;
    return rows;
}
#else
static const uint8_t *rows_of(int count, char **words) {
    FILE *file = count == 2 ? fopen(words[1], "rb") : NULL;
    if (file == NULL || fseek(file, 0, SEEK_END) != 0)
        exit(2);
    long size = ftell(file);
    rewind(file);
    uint8_t *bytes = malloc((size_t)size);
    if (bytes == NULL || fread(bytes, 1, (size_t)size, file) != (size_t)size)
        exit(2);
    fclose(file);
    return bytes;
}
#endif

/* A row, as it lies in memory. */
struct row {
    uint32_t is_hss, key_len, message_len, signature_len, answer, leaf;
    const uint8_t *key, *message, *signature;
};

static const uint32_t unset = 0xdeadbeef;
static rikselbe_state state;

static uint32_t number(const uint8_t *bytes) {
    return bytes[0] | (uint32_t)bytes[1] << 8 | (uint32_t)bytes[2] << 16 | (uint32_t)bytes[3] << 24;
}

/* Reads the row at a place, and returns where the next one is. */
static const uint8_t *read_row(const uint8_t *at, struct row *row) {
    row->is_hss = number(at);
    row->key_len = number(at + 4);
    row->message_len = number(at + 8);
    row->signature_len = number(at + 12);
    row->answer = number(at + 16);
    row->leaf = number(at + 20);
    row->key = at + 24;
    row->message = row->key + row->key_len;
    row->signature = row->message + row->message_len;
    uint32_t length = row->key_len + row->message_len + row->signature_len;
    return row->key + length + (4 - length % 4) % 4;
}

static uint32_t whole(const struct row *row, uint32_t *leaf) {
    if (row->is_hss)
        return rikselbe_hss_verify(row->key, row->key_len, row->message, row->message_len, row->signature,
                                   row->signature_len);
    return rikselbe_lms_verify(row->key, row->key_len, row->message, row->message_len, row->signature,
                               row->signature_len, leaf);
}

/* Verifies in pieces of this length, and then an empty one. What the state holds before does not matter. */
static uint32_t in_pieces(const struct row *row, uint32_t length, uint32_t *leaf) {
    memset(&state, 0xa5, sizeof state);
    (row->is_hss ? rikselbe_hss_begin : rikselbe_lms_begin)(&state, row->key, row->key_len, row->signature,
                                                            row->signature_len);
    for (uint32_t at = 0; at <= row->message_len; at += length) {
        uint32_t left = row->message_len - at;
        (row->is_hss ? rikselbe_hss_update : rikselbe_lms_update)(&state, row->message + at,
                                                                  left < length ? left : length);
    }
    return row->is_hss ? rikselbe_hss_finish(&state, row->signature, row->signature_len)
                       : rikselbe_lms_finish(&state, row->signature, row->signature_len, leaf);
}

int main(int count, char **words) {
    static const uint32_t lengths[] = {0, UINT32_C(1) << 30, 1, 63, 64};
    const uint8_t *at = rows_of(count, words);
    unsigned all = number(at), calls = 0, accepted = 0, wrong = 0;
    at += 4;
    for (unsigned i = 0; i < all; i++) {
        struct row row;
        at = read_row(at, &row);
        for (unsigned way = 0; way < sizeof lengths / sizeof lengths[0]; way++) {
            if (way > 1 && row.message_len > 4096)
                break;
            uint32_t leaf = unset;
            uint32_t answer = way == 0 ? whole(&row, &leaf) : in_pieces(&row, lengths[way], &leaf);
            calls++;
            accepted += answer == RIKSELBE_ACCEPTED;
            if (answer == row.answer && leaf == row.leaf)
                continue;
            wrong++;
            printf("row %u in pieces of %lu: 0x%lx leaf %lu in place of 0x%lx leaf %lu\n", i,
                   (unsigned long)lengths[way], (unsigned long)answer, (unsigned long)leaf, (unsigned long)row.answer,
                   (unsigned long)row.leaf);
        }
    }
    printf("%u rows, %u verifications, %u accepted, %u wrong\n", all, calls, accepted, wrong);
    return wrong != 0;
}
