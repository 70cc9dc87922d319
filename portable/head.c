/* Rikselbe's verifier of LMS and HSS signatures (RFC 8554, NIST SP 800-208) in portable C, with the calls of
 * rikselbe.h. script/verifier made this file; do not edit it. docs/EMBEDDING.md says how, what is proved, and what is
 * trusted.
 *
 * It takes a compiler for C99 whose `unsigned char` has 8 bits, with pointers of at most 64 bits that convert to
 * uintptr_t and back; the processor may have 32 or 64 bits, and pointers that are handed in need no alignment but
 * that of their type. It needs memcpy, memmove and memset, and of the standard's headers <stddef.h> and <stdint.h>.
 * It has no variable of its own, allocates nothing, and may be called from several threads at once.
 *
 * What may be defined before it is compiled:
 *   RIKSELBE_CHECKED  each read and each write is first looked up among the arrays that the call was given, its part of
 *                     the stack and the constants. One that lies in none of them ends in RIKSELBE_TRAP.
 *   RIKSELBE_TRAP()   what is done then, if the code's part of the stack does not suffice, and where the code was proved
 *                     never to arrive. By default it is the compiler's trap. If it returns, an endless loop follows.
 */
#include "rikselbe.h"

#if defined(__BYTE_ORDER__) && defined(__ORDER_LITTLE_ENDIAN__)
#if __BYTE_ORDER__ != __ORDER_LITTLE_ENDIAN__
#error "rikselbe.c is for processors that put the lowest byte first"
#endif
#endif

/* Declared here, since a compiler for a machine with no C library may have no <string.h>. */
void *memcpy(void *to, const void *from, size_t length);
void *memmove(void *to, const void *from, size_t length);
void *memset(void *to, int byte, size_t length);

#ifndef RIKSELBE_TRAP
#ifdef __GNUC__
#define RIKSELBE_TRAP() __builtin_trap()
#else
#define RIKSELBE_TRAP() ((void)0)
#endif
#endif

/* What wasm2c writes has results that are not used, and not every access below is used. */
#ifdef __GNUC__
#pragma GCC diagnostic push
#pragma GCC diagnostic ignored "-Wunused-function"
#pragma GCC diagnostic ignored "-Wunused-parameter"
#pragma GCC diagnostic ignored "-Wunused-variable"
#pragma GCC diagnostic ignored "-Wunused-but-set-variable"
#pragma GCC diagnostic ignored "-Wunused-label"
#endif

/* The types of WebAssembly. */
typedef uint8_t u8;
typedef int8_t s8;
typedef uint16_t u16;
typedef int16_t s16;
typedef uint32_t u32;
typedef int32_t s32;
typedef uint64_t u64;
typedef int64_t s64;

static void rik_trap(void) {
    RIKSELBE_TRAP();
    for (;;) {
    }
}

/* The addresses of the code are those of the machine. */
static u64 rik_address(const void *pointer) { return (u64)(uintptr_t)pointer; }

/* What a call may use: where its stack begins and, with RIKSELBE_CHECKED, each array that it was given. */
enum { RIK_PARTS = 6 };

struct Z_env_instance_t {
    u64 stack_begin;
#ifdef RIKSELBE_CHECKED
    struct {
        u64 begin, length;
        int is_writable;
    } parts[RIK_PARTS];
    int count;
#endif
};

static inline u64 Z_envZ_stack_begin(struct Z_env_instance_t *memory) { return memory->stack_begin; }

#ifdef RIKSELBE_CHECKED
static void rik_check(const struct Z_env_instance_t *memory, u64 at, u64 length, int writes) {
    for (int i = 0; i < memory->count; i++)
        if (length <= memory->parts[i].length && at - memory->parts[i].begin <= memory->parts[i].length - length &&
            (memory->parts[i].is_writable || !writes))
            return;
    rik_trap();
}

static void rik_allow(struct Z_env_instance_t *memory, const void *begin, u64 length, int is_writable) {
    memory->parts[memory->count].begin = rik_address(begin);
    memory->parts[memory->count].length = length;
    memory->parts[memory->count].is_writable = is_writable;
    memory->count++;
}
#else
#define rik_check(memory, at, length, writes) ((void)(memory))
#define rik_allow(memory, begin, length, is_writable) ((void)(memory))
#endif

/* The code's accesses to memory: at an address and an offset, of a type, extended to another one. */
#define RIK_LOAD(name, stored, extended, result)                                            \
    static inline result Z_envZ_##name(struct Z_env_instance_t *memory, u64 at, u64 more) { \
        stored value;                                                                       \
        rik_check(memory, at + more, sizeof value, 0);                                      \
        memcpy(&value, (const void *)(uintptr_t)(at + more), sizeof value);                 \
        return (result)(extended)value;                                                     \
    }
#define RIK_STORE(name, stored, given)                                                                 \
    static inline void Z_envZ_##name(struct Z_env_instance_t *memory, u64 at, given value, u64 more) { \
        stored kept = (stored)value;                                                                   \
        rik_check(memory, at + more, sizeof kept, 1);                                                  \
        memcpy((void *)(uintptr_t)(at + more), &kept, sizeof kept);                                    \
    }
RIK_LOAD(i32_load, u32, u32, u32)
RIK_LOAD(i64_load, u64, u64, u64)
RIK_LOAD(i32_load8_s, s8, s32, u32)
RIK_LOAD(i64_load8_s, s8, s64, u64)
RIK_LOAD(i32_load8_u, u8, u32, u32)
RIK_LOAD(i64_load8_u, u8, u64, u64)
RIK_LOAD(i32_load16_s, s16, s32, u32)
RIK_LOAD(i64_load16_s, s16, s64, u64)
RIK_LOAD(i32_load16_u, u16, u32, u32)
RIK_LOAD(i64_load16_u, u16, u64, u64)
RIK_LOAD(i64_load32_s, s32, s64, u64)
RIK_LOAD(i64_load32_u, u32, u64, u64)
RIK_STORE(i32_store, u32, u32)
RIK_STORE(i64_store, u64, u64)
RIK_STORE(i32_store8, u8, u32)
RIK_STORE(i32_store16, u16, u32)
RIK_STORE(i64_store8, u8, u64)
RIK_STORE(i64_store16, u16, u64)
RIK_STORE(i64_store32, u32, u64)

static inline void Z_envZ_memory_copy(struct Z_env_instance_t *memory, u64 to, u64 from, u64 length) {
    if (length == 0)
        return;
    rik_check(memory, to, length, 1);
    rik_check(memory, from, length, 0);
    memmove((void *)(uintptr_t)to, (const void *)(uintptr_t)from, (size_t)length);
}

static inline void Z_envZ_memory_fill(struct Z_env_instance_t *memory, u64 to, u32 byte, u64 length) {
    if (length == 0)
        return;
    rik_check(memory, to, length, 1);
    memset((void *)(uintptr_t)to, (int)(byte & 0xff), (size_t)length);
}

/* The instructions that C lacks, under the names that wasm2c gives them. */
#define FUNC_PROLOGUE
#define FUNC_EPILOGUE
#define UNREACHABLE rik_trap()
#define I32_ROTL(x, y) (((x) << ((y) & 31)) | ((x) >> ((32 - ((y) & 31)) & 31)))
#define I64_ROTL(x, y) (((x) << ((y) & 63)) | ((x) >> ((64 - ((y) & 63)) & 63)))
#define I32_ROTR(x, y) (((x) >> ((y) & 31)) | ((x) << ((32 - ((y) & 31)) & 31)))
#define I64_ROTR(x, y) (((x) >> ((y) & 63)) | ((x) << ((64 - ((y) & 63)) & 63)))
#define DIV_U(x, y) ((y) == 0 ? (rik_trap(), 0) : (x) / (y))
#define REM_U(x, y) ((y) == 0 ? (rik_trap(), 0) : (x) % (y))
