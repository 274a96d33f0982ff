/* memcpy and memmove in place of musl's: on x86-64 that copies a few bytes several times more slowly than glibc does, and
 * programs copy little else. Up to 16 bytes are read in two parts that may overlap, before either is written; of more the
 * first and the last sixteen are, and what lies between is copied in the direction in which nothing is overwritten that is
 * still to be read. */
#include <stddef.h>
#include <stdint.h>

typedef uint64_t Sixteen __attribute__((vector_size(16), aligned(1), may_alias));
typedef uint64_t Eight __attribute__((aligned(1), may_alias));
typedef uint32_t Four __attribute__((aligned(1), may_alias));
typedef uint16_t Two __attribute__((aligned(1), may_alias));

#define COPY_ENDS(Part)                                                          \
    do {                                                                         \
        Part first = *(const Part *)from;                                        \
        Part last = *(const Part *)(from + size - sizeof(Part));                 \
        *(Part *)to = first;                                                     \
        *(Part *)(to + size - sizeof(Part)) = last;                              \
    } while (0)

static void copy_small(unsigned char *to, const unsigned char *from, size_t size)
{
    if (size >= 8)
        COPY_ENDS(Eight);
    else if (size >= 4)
        COPY_ENDS(Four);
    else if (size >= 2)
        COPY_ENDS(Two);
    else if (size == 1)
        *to = *from;
}

/* All are read before any is written. */
static void copy_sixteen(unsigned char *to, const unsigned char *from)
{
    Sixteen part = *(const Sixteen *)from;
    *(Sixteen *)to = part;
}

static void copy_large(unsigned char *to, const unsigned char *from, size_t size)
{
    Sixteen first = *(const Sixteen *)from;
    Sixteen last = *(const Sixteen *)(from + size - 16);
    size_t at;
    /* the target begins before the source, or after its end */
    if ((uintptr_t)to - (uintptr_t)from >= size)
        for (at = 16; at < size - 16; at += 16)
            copy_sixteen(to + at, from + at);
    else
        for (at = size - 16; at > 16; at -= 16)
            copy_sixteen(to + at - 16, from + at - 16);
    *(Sixteen *)to = first;
    *(Sixteen *)(to + size - 16) = last;
}

void *memmove(void *target, const void *source, size_t size)
{
    if (size <= 16)
        copy_small(target, source, size);
    else
        copy_large(target, source, size);
    return target;
}

void *memcpy(void *restrict target, const void *restrict source, size_t size)
{
    return memmove(target, source, size);
}
