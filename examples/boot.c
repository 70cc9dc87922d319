/* A boot loader in miniature: no C library, and no system call but the one that ends it. It verifies the image that is
 * linked into it. Its exit status is 0 if the signature is accepted, and otherwise the lowest byte of the answer. It
 * runs on Linux on x86-64, aarch64 and RISC-V; examples/cortex-m is a loader for a board without any system.
 *
 *     cc -ffreestanding -fno-stack-protector -nostdlib -static -I include -DIMAGE='"image.h"' \
 *         examples/boot.c crates/rikselbe_c/out/librikselbe_c.a -o boot
 *
 * In place of the library it can be linked with rikselbe.c, the same verifier in portable C.
 *
 * image.h has the byte arrays key, image and signature, as `xxd -i` prints them. */
#include "rikselbe.h"

#include IMAGE

/* What the library needs from the program that it is linked into. The bytes are volatile, so that no compiler turns
 * memcpy into a call of memcpy. */
void *memcpy(void *to, const void *from, size_t length) {
    for (size_t i = 0; i < length; i++)
        ((volatile uint8_t *)to)[i] = ((const uint8_t *)from)[i];
    return to;
}

void *memmove(void *to, const void *from, size_t length) {
    if ((uintptr_t)to <= (uintptr_t)from)
        return memcpy(to, from, length);
    while (length-- > 0)
        ((volatile uint8_t *)to)[length] = ((const uint8_t *)from)[length];
    return to;
}

void *memset(void *to, int byte, size_t length) {
    for (size_t i = 0; i < length; i++)
        ((volatile uint8_t *)to)[i] = (uint8_t)byte;
    return to;
}

/* Ends the program with a status: the one thing here that depends on the processor, with the entry below. A loader of
 * its own board starts the image in place of it, or stops. */
static void end(long status) {
#if defined(__x86_64__)
    __asm__ volatile("syscall" : : "a"(60L), "D"(status));
#elif defined(__aarch64__)
    register long x0 __asm__("x0") = status, x8 __asm__("x8") = 93;
    __asm__ volatile("svc 0" : : "r"(x0), "r"(x8));
#elif defined(__riscv)
    register long a0 __asm__("a0") = status, a7 __asm__("a7") = 93;
    __asm__ volatile("ecall" : : "r"(a0), "r"(a7));
#else
#error "say here how a program ends on this processor, and below how it begins"
#endif
    for (;;) {
    }
}

/* Called by the entry below, with the stack aligned as a call needs it. */
__attribute__((noreturn, used)) static void boot(void) {
    uint32_t leaf = 0;
    uint32_t answer = rikselbe_lms_verify(key, sizeof key, image, sizeof image, signature, sizeof signature, &leaf);
    end((long)RIKSELBE_KIND(answer));
    __builtin_unreachable();
}

#if defined(__x86_64__)
__asm__(".globl _start\n_start: xor %ebp, %ebp\n and $-16, %rsp\n call boot\n");
#elif defined(__aarch64__)
__asm__(".globl _start\n_start: mov x29, #0\n mov x30, #0\n bl boot\n");
#elif defined(__riscv)
__asm__(".globl _start\n_start: .option push\n .option norelax\n la gp, __global_pointer$\n .option pop\n call boot\n");
#endif
