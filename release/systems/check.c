/* Prints what the functions of heap.c, linux.c and memory.c return where calls succeed and where they fail. It prints the
 * same if it is linked with the toolchain's own functions and glibc. Its arguments are what it asks for. */
#define _DEFAULT_SOURCE
#include <stddef.h>
#include <stdint.h>
#include <stdio.h>
#include <string.h>
#include <unistd.h>

typedef struct {
    uint64_t is_allocated;
    char *bytes;
} Allocation;

Allocation rattle_alloc(size_t size, size_t align);
Allocation rattle_realloc(void *bytes, size_t old_size, size_t size, size_t align);
void rattle_dealloc(void *bytes);
int rattle_errno(void);
void rattle_set_errno(int error);
int64_t rattle_arg(size_t index, char *buffer, size_t size);

static void print_allocations(void)
{
    static const size_t sizes[] = {0, 1, 8, 4096, SIZE_MAX / 2, SIZE_MAX};
    for (size_t i = 0; i < sizeof sizes / sizeof *sizes; i++)
        for (size_t align = 1; align <= 16; align *= 4) {
            Allocation first = rattle_alloc(sizes[i], align);
            Allocation block = rattle_alloc(8, 8);
            memcpy(block.bytes, "abcdefg", 8);
            Allocation grown = rattle_realloc(block.bytes, 8, sizes[i], align);
            char *kept = grown.is_allocated ? grown.bytes : block.bytes;
            printf("%zu %zu: %d %d %d %d %d\n", sizes[i], align, (int)first.is_allocated, first.bytes != NULL,
                   (int)grown.is_allocated, grown.bytes != NULL, memcmp(kept, "abcdefg", sizes[i] < 8 ? sizes[i] : 8));
            if (first.is_allocated)
                rattle_dealloc(first.bytes);
            rattle_dealloc(kept);
        }
    rattle_dealloc(NULL);
}

static uint32_t sum_of(const unsigned char *bytes, size_t size)
{
    uint32_t sum = 2166136261u;
    for (size_t i = 0; i < size; i++)
        sum = (sum ^ bytes[i]) * 16777619u;
    return sum;
}

/* What was written stays, however often a block grows, and beyond the largest that is kept. */
static void print_grown(void)
{
    size_t size = 0;
    Allocation block = rattle_alloc(0, 1);
    while (size < (size_t)1 << 22) {
        size_t larger = size + size / 3 + 1;
        block = rattle_realloc(block.bytes, size, larger, 1);
        memset(block.bytes + size, (int)(larger % 251), larger - size);
        size = larger;
        printf("%zu %d %u\n", size, (int)block.is_allocated, (unsigned)sum_of((unsigned char *)block.bytes, size));
    }
    block = rattle_realloc(block.bytes, size, 5, 1);
    printf("%d %u\n", (int)block.is_allocated, (unsigned)sum_of((unsigned char *)block.bytes, 5));
    rattle_dealloc(block.bytes);
}

/* Copies of each size up to 160 bytes and of some larger, between blocks that overlap in each way and that do not. */
static void print_copies(void)
{
    static const size_t larger[] = {255, 256, 1000, 4099};
    static unsigned char bytes[3 * 4200];
    for (size_t i = 0; i < 161 + sizeof larger / sizeof *larger; i++) {
        size_t size = i < 161 ? i : larger[i - 161];
        uint32_t sum = 0;
        for (size_t to = 4200 - 70; to <= 4200 + 70; to++) {
            for (size_t j = 0; j < sizeof bytes; j++)
                bytes[j] = (unsigned char)(j * 7 + j / 256);
            sum += memmove(bytes + to, bytes + 4200, size) == bytes + to;
            sum += memcpy(bytes + to % 64, bytes + 2 * 4200, size) == bytes + to % 64;
            sum = 31 * sum + sum_of(bytes, sizeof bytes);
        }
        printf("%zu %u\n", size, (unsigned)sum);
    }
}

/* What is freed is used again. */
static void print_growth(void)
{
    char *end = sbrk(0);
    for (int i = 0; i < 10000; i++)
        rattle_dealloc(rattle_alloc(4096, 8).bytes);
    printf("%d\n", (char *)sbrk(0) - end < 1 << 20);
}

static void print_arguments(int count)
{
    char buffer[16];
    for (size_t i = 1; i < (size_t)count + 2; i++)
        for (size_t size = 0; size < sizeof buffer; size++) {
            memset(buffer, '#', sizeof buffer);
            printf("%zu %zu: %lld %.16s\n", i, size, (long long)rattle_arg(i, buffer, size), buffer);
        }
    printf("%lld\n", (long long)rattle_arg(SIZE_MAX, buffer, sizeof buffer));
}

int main(int count, char **arguments)
{
    (void)arguments;
    print_allocations();
    print_grown();
    print_copies();
    print_growth();
    print_arguments(count);
    char byte = 0;
    int told = (int)write(-1, &byte, 1);
    printf("%d %d\n", told, rattle_errno());
    told = (int)read(0, &byte, 1);
    printf("%d %d\n", told, rattle_errno());
    rattle_set_errno(7);
    printf("%d\n", rattle_errno());
    return 0;
}
