/* What verification costs on a Cortex-M3 in qemu: for each accepted LMS row that script/embedded.py packs, the
 * thousands of instructions of a whole call, by a timer of the board that counts them (-icount), and the bytes of the
 * stack that it touches, found on a stack that was painted before. */
#include "board.h"
#include "rikselbe.h"

extern const uint8_t rows[];
__asm__(".section .slot, \"a\"\nrows:\n.incbin \"" ROWS "\"\n.text\n");

enum { PAINT = 0xa5, ROOM = 12288, MARGIN = 64 };

/* The timer counts down at 25 MHz. An instruction takes a nanosecond with -icount shift=0, so a step is 40 of them. */
static volatile uint32_t *const timer = (volatile uint32_t *)0x40000000;

static uint32_t number(const uint8_t *bytes) {
    return bytes[0] | (uint32_t)bytes[1] << 8 | (uint32_t)bytes[2] << 16 | (uint32_t)bytes[3] << 24;
}

static void print_number(uint32_t value) {
    char text[11], *at = text + sizeof text - 1;
    *at = 0;
    do
        *--at = (char)('0' + value % 10);
    while ((value /= 10) > 0);
    print(at);
    print(" ");
}

__attribute__((noinline)) static void paint(uint8_t *from) {
    for (volatile uint8_t *at = from; at < from + ROOM; at++)
        *at = PAINT;
}

int main(void) {
    uint32_t here;
    uint8_t *low = (uint8_t *)&here - MARGIN - ROOM;
    const uint8_t *at = rows + 4;
    timer[2] = timer[1] = 0xffffffff;
    timer[0] = 1;
    for (uint32_t left = number(rows); left > 0; left--) {
        uint32_t is_hss = number(at), key_len = number(at + 4), message_len = number(at + 8);
        uint32_t signature_len = number(at + 12), answer = number(at + 16), leaf;
        const uint8_t *key = at + 24, *message = key + key_len, *signature = message + message_len;
        if (!is_hss && answer == RIKSELBE_ACCEPTED) {
            paint(low);
            uint32_t begin = timer[1];
            uint32_t got = rikselbe_lms_verify(key, key_len, message, message_len, signature, signature_len, &leaf);
            uint32_t steps = begin - timer[1];
            const uint8_t *touched = low;
            while (touched < low + ROOM && *touched == PAINT)
                touched++;
            print_number(key[3]);
            print_number(key[7]);
            print_number(message_len);
            print_number(steps / 25);
            print_number((uint32_t)(low + ROOM + MARGIN - touched));
            print(got == RIKSELBE_ACCEPTED ? "\n" : "not accepted\n");
        }
        at = signature + signature_len;
        at += (4 - (key_len + message_len + signature_len) % 4) % 4;
    }
    return 0;
}
