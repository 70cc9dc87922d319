/* The loader: finds the image and the signature in the slot, verifies them under the key that it has itself, and says
 * what it found. Whatever bytes the slot holds, it reads nothing outside of it. */
#include "board.h"
#include "rikselbe.h"

extern const uint8_t key[], key_end[], slot_begin[], slot_length[];

static void print_number(uint32_t number, uint32_t base) {
    char text[11], *at = text + sizeof text - 1;
    *at = 0;
    do
        *--at = "0123456789abcdef"[number % base];
    while ((number /= base) > 0);
    print(at);
}

int main(void) {
    const uint32_t *lengths = (const uint32_t *)(const void *)slot_begin;
    /* The linker gives the slot's length as an address. */
    uint32_t left = (uint32_t)(uintptr_t)slot_length - 8;
    /* Flash that was never written is full of ones, so both lengths have to be looked at. */
    if (lengths[0] > left || lengths[1] > left - lengths[0]) {
        print("there is no image in the slot\n");
        return 1;
    }
    const uint8_t *image = slot_begin + 8, *signature = image + lengths[0];
    uint32_t leaf = 0;
    uint32_t answer =
        rikselbe_lms_verify(key, (size_t)(key_end - key), image, lengths[0], signature, lengths[1], &leaf);
    if (answer != RIKSELBE_ACCEPTED) {
        print("not accepted: 0x");
        print_number(answer, 16);
        print("\n");
        return 1;
    }
    print("accepted leaf ");
    print_number(leaf, 10);
    print("\n");
    /* Here a loader starts the image: it sets the stack pointer to the image's first word, and jumps to its second. */
    return 0;
}
