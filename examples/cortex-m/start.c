/* What runs before main on a Cortex-M: the table of vectors, and the reset that it points to. */
#include <stdint.h>

#include "board.h"

extern uint32_t data_begin[], data_end[], bss_begin[], bss_end[], stack_end[];
extern const uint32_t data_source[];

static int call_host(int number, const void *word) {
    register int r0 __asm__("r0") = number;
    register const void *r1 __asm__("r1") = word;
    __asm__ volatile("bkpt 0xab" : "+r"(r0) : "r"(r1) : "memory", "cc");
    return r0;
}

void print(const char *text) { call_host(0x04, text); }

void end(int status) {
    const uint32_t words[2] = {0x20026, (uint32_t)status};
    call_host(0x20, words);
    for (;;) {
    }
}

__attribute__((noreturn, used)) void reset(void) {
    const uint32_t *from = data_source;
    for (uint32_t *to = data_begin; to < data_end;)
        *to++ = *from++;
    for (uint32_t *to = bss_begin; to < bss_end;)
        *to++ = 0;
    end(main());
}

static void fault(void) {
    print("a fault of the processor\n");
    end(99);
}

/* The first two are the stack pointer and the reset; the others are for faults. No interrupt is switched on. */
typedef union {
    const void *stack;
    void (*handler)(void);
} vector;

__attribute__((section(".vectors"), used)) static const vector vectors[16] = {
    {.stack = stack_end}, {.handler = reset}, {.handler = fault}, {.handler = fault},
    {.handler = fault},   {.handler = fault}, {.handler = fault},
};
