/* What verification costs a program in C. With the words lms or hss, KEY, MESSAGE, SIGNATURE and TIMES it verifies that
 * many times; with TIMES 0 it prints the most stack that each call uses, found on a stack that was painted before. */
#include <stdio.h>
#include <stdlib.h>
#include <string.h>
#include <ucontext.h>

#include "rikselbe.h"

enum { ROOM = 1 << 16, PAINT = 0xa5 };

static uint8_t key[64], signature[1 << 17], message[1 << 21], stack[ROOM];
static size_t key_len, signature_len, message_len;
static uint32_t leaf, answer;
static rikselbe_state state;
static ucontext_t here, there;

static size_t read_file(const char *name, uint8_t *bytes, size_t room) {
    FILE *file = fopen(name, "rb");
    if (file == NULL) {
        perror(name);
        exit(2);
    }
    size_t length = fread(bytes, 1, room, file);
    fclose(file);
    return length;
}

static void nothing(void) {}
static void lms(void) {
    answer = rikselbe_lms_verify(key, key_len, message, message_len, signature, signature_len, &leaf);
}
static void hss(void) {
    answer = rikselbe_hss_verify(key, key_len, message, message_len, signature, signature_len);
}
static void lms_begin(void) { rikselbe_lms_begin(&state, key, key_len, signature, signature_len); }
static void lms_update(void) { rikselbe_lms_update(&state, message, message_len); }
static void lms_finish(void) { answer = rikselbe_lms_finish(&state, signature, signature_len, &leaf); }
static void hss_begin(void) { rikselbe_hss_begin(&state, key, key_len, signature, signature_len); }
static void hss_update(void) { rikselbe_hss_update(&state, message, message_len); }
static void hss_finish(void) { answer = rikselbe_hss_finish(&state, signature, signature_len); }

/* How many bytes of the stack a call touches. */
static size_t depth(void (*call)(void)) {
    memset(stack, PAINT, sizeof stack);
    getcontext(&there);
    there.uc_stack.ss_sp = stack;
    there.uc_stack.ss_size = sizeof stack;
    there.uc_link = &here;
    makecontext(&there, call, 0);
    swapcontext(&here, &there);
    size_t untouched = 0;
    while (untouched < sizeof stack && stack[untouched] == PAINT)
        untouched++;
    return sizeof stack - untouched;
}

int main(int count, char **words) {
    if (count != 6)
        return 2;
    int is_hss = strcmp(words[1], "hss") == 0;
    key_len = read_file(words[2], key, sizeof key);
    message_len = read_file(words[3], message, sizeof message);
    signature_len = read_file(words[4], signature, sizeof signature);
    int times = atoi(words[5]);
    for (int i = 0; i < times; i++)
        (is_hss ? hss : lms)();
    if (times == 0) {
        size_t base = depth(nothing);
        printf("whole %zu", depth(is_hss ? hss : lms) - base);
        printf(", begin %zu", depth(is_hss ? hss_begin : lms_begin) - base);
        printf(", update %zu", depth(is_hss ? hss_update : lms_update) - base);
        printf(", finish %zu\n", depth(is_hss ? hss_finish : lms_finish) - base);
    }
    if (answer != RIKSELBE_ACCEPTED)
        fprintf(stderr, "not accepted: 0x%x\n", (unsigned)answer);
    return answer != RIKSELBE_ACCEPTED;
}
