/* Allocation, which compiled Rattle programs call: a flag and an address are returned, 1 and the bytes or 0 and any address.
 * The toolchain has these functions for glibc on x86-64; these do the same over musl's malloc, whose `free` gives memory
 * back to the system each time. So that memory is not asked for again for each line, small blocks are kept for the next
 * request of their size. Programs have one thread. */
#include <malloc.h>
#include <stddef.h>
#include <stdint.h>
#include <stdlib.h>
#include <string.h>

typedef struct {
    uint64_t is_allocated;
    void *bytes;
} Allocation;

typedef struct Block {
    struct Block *next;
} Block;

enum { SMALLEST = 16, LARGEST = 1 << 16, CLASSES = 49 };

static Block *kept[CLASSES];
static char nothing;

static Allocation allocation(void *bytes)
{
    Allocation made = {bytes != NULL, bytes ? bytes : &nothing};
    return made;
}

/* There are four classes of sizes from each power of two to the next: 16, 20, 24, 28, 32, 40, .. up to LARGEST. */
static size_t room_of(unsigned class)
{
    return (size_t)(4 + class % 4) << (class / 4 + 2);
}

/* The largest class whose blocks have no more room than these bytes. */
static unsigned class_within(size_t size)
{
    unsigned power = 63 - (unsigned)__builtin_clzll(size);
    return 4 * (power - 4) + (unsigned)(size >> (power - 2) & 3);
}

Allocation rattle_alloc(size_t size, size_t align)
{
    unsigned class;
    Block *block;
    (void)align;
    if (size > LARGEST)
        return allocation(malloc(size));
    if (size < SMALLEST)
        size = SMALLEST;
    class = class_within(size);
    if (room_of(class) < size)
        class++;
    block = kept[class];
    if (!block)
        return allocation(malloc(room_of(class)));
    kept[class] = block->next;
    return allocation(block);
}

void rattle_dealloc(void *bytes)
{
    size_t room = malloc_usable_size(bytes);
    Block *block = bytes;
    unsigned class;
    if (room < SMALLEST || room > LARGEST) {
        free(bytes);
        return;
    }
    class = class_within(room);
    block->next = kept[class];
    kept[class] = block;
}

Allocation rattle_realloc(void *bytes, size_t old_size, size_t size, size_t align)
{
    size_t room = malloc_usable_size(bytes);
    Allocation made;
    if (room > LARGEST)
        return allocation(realloc(bytes, size ? size : align));
    if (size <= room)
        return allocation(bytes);
    made = rattle_alloc(size, align);
    if (made.is_allocated) {
        memcpy(made.bytes, bytes, old_size);
        rattle_dealloc(bytes);
    }
    return made;
}
