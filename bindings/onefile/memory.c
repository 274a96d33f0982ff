#include "cvss.h"
#include <stdlib.h>
#include <string.h>

typedef uint8_t u8;
typedef int8_t s8;
typedef uint16_t u16;
typedef uint32_t u32;
typedef int32_t s32;
typedef uint64_t u64;
typedef int64_t s64;

/*
 * The translated functions compute with addresses of 64 bits. Those of the constants are from CONSTANTS on, where no processor
 * has memory; all others are addresses of this process.
 */
#define CONSTANTS 0x4000000000000000u
#define ADDRESS(pointer) ((u64)(uintptr_t)(pointer))
#define POINTER(address) ((u8 *)(uintptr_t)(address))

enum { STACK = 32768, STRUCTS = 512 };

@CONSTANTS@

/* Some memory of the caller. */
typedef struct Span {
    u64 start;
    u64 size;
} Span;

/* What a call may use: its stack with the structs above it, and what the caller has given. */
typedef struct Memory {
    u64 stack_pointer;
    u32 is_in_call;
    Span text;
    Span metrics;
    Span buffer;
    u64 own[(STACK + STRUCTS) / 8];
} Memory;

#if defined(__GNUC__)
#define OUT_OF_LINE __attribute__((noinline))
#else
#define OUT_OF_LINE
#endif

static int is_within(u64 start, u64 size, u64 address, u64 n)
{
    return address - start <= size && n <= size - (address - start);
}

/* The bytes at an address. What is neither the call's own nor given by the caller is neither read nor written: the program ends. */
static OUT_OF_LINE u8 *to_write(const Memory *m, u64 address, u64 n)
{
    if (!is_within(ADDRESS(m->own), sizeof m->own, address, n) && !is_within(m->buffer.start, m->buffer.size, address, n))
        abort();
    return POINTER(address);
}

static OUT_OF_LINE const u8 *to_read(const Memory *m, u64 address, u64 n)
{
    if (is_within(m->text.start, m->text.size, address, n))
        return POINTER(address);
    if (is_within(CONSTANTS, sizeof constants, address, n))
        return constants + (address - CONSTANTS);
    return is_within(m->metrics.start, m->metrics.size, address, n) ? POINTER(address) : to_write(m, address, n);
}

#ifdef CVSS_UNCHECKED
#define READ(m, address, n) \
    ((void)(m), (address) - CONSTANTS < sizeof constants ? constants + ((address) - CONSTANTS) : POINTER(address))
#define WRITTEN(m, address, n) ((void)(m), POINTER(address))
#else
#define IS_OWN(m, address, n) ((address) - ADDRESS((m)->own) <= sizeof (m)->own - (n))
#define READ(m, address, n) (IS_OWN(m, address, n) ? POINTER(address) : to_read(m, address, n))
#define WRITTEN(m, address, n) (IS_OWN(m, address, n) ? POINTER(address) : to_write(m, address, n))
#endif

/* In memory the lowest byte of a number comes first. */
#if defined(__BYTE_ORDER__) && __BYTE_ORDER__ == __ORDER_BIG_ENDIAN__
#define ORDER(t, x) (sizeof(t) == 1 ? (t)(x) : sizeof(t) == 2 ? (t)__builtin_bswap16((u16)(x)) \
    : sizeof(t) == 4 ? (t)__builtin_bswap32((u32)(x)) : (t)__builtin_bswap64((u64)(x)))
#else
#define ORDER(t, x) (x)
#endif
#define LOAD(name, stored, loaded) \
    static inline loaded name(Memory *m, u64 address) \
    { \
        stored x; \
        memcpy(&x, READ(m, address, sizeof x), sizeof x); \
        x = ORDER(stored, x); \
        return (loaded)x; \
    }
#define STORE(name, stored, given) \
    static inline void name(Memory *m, u64 address, given number) \
    { \
        stored x = (stored)number; \
        x = ORDER(stored, x); \
        memcpy(WRITTEN(m, address, sizeof x), &x, sizeof x); \
    }
@ACCESSES@

static void memory_fill(Memory *m, u64 to, u32 byte, u64 n)
{
    memset(to_write(m, to, n), (int)(byte & 255), (size_t)n);
}

static void memory_copy(Memory *m, u64 to, u64 from, u64 n)
{
    memmove(to_write(m, to, n), to_read(m, from, n), (size_t)n);
}

#define I32_ROTR(x, n) ((x) >> ((n) & 31) | (x) << (-(n) & 31))
#define I32_ROTL(x, n) ((x) << ((n) & 31) | (x) >> (-(n) & 31))
#define I64_ROTR(x, n) ((x) >> ((n) & 63) | (x) << (-(n) & 63))
#define I64_ROTL(x, n) ((x) << ((n) & 63) | (x) >> (-(n) & 63))
@COUNTS@
