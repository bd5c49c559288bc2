/* The heap of the module for pages, and what else the proved library asks of a C library. It asks nothing of a host.

   Before each block stand 16 bytes with the class of its size, so that a block is aligned to 16. Each doubling of sizes has four
   classes. A block that is freed joins the list of its class, and the next block of that class is taken from there. Where the list is
   empty, a block comes from the end of the memory, which grows; where that does not grow, it is cut from a greater one that is free.
   Blocks are not joined again. So a call costs the same however many blocks there are, and the memory holds at most what each class
   once held at the same time. */

typedef unsigned long size;
typedef unsigned char byte;

_Static_assert(sizeof(size) == 8 && sizeof(void *) == 8, "this heap is for a 64-bit memory");

enum { HEADER = 16, LEAST = 64, PAGE = 65536, CLASSES = 4 * 48 };

/* No block is greater: two to the 40th bytes. */
static const size LIMIT = 1ul << 40;

struct block {
    struct block *next;
};

void free(void *);

extern byte __heap_base;
static struct block *freed[CLASSES];
static byte *end_of_blocks, *end_of_memory;

/* The least class whose blocks have so many bytes, from LEAST on. */
static size class_for(size bytes) {
    size highest = 63 - (size)__builtin_clzl(bytes - 1);
    return 4 * highest + ((bytes - 1) >> (highest - 2) & 3);
}

/* How many bytes a block of a class has, with its header. */
static size bytes_in(size class) {
    return (5 + (class & 3)) << (class / 4 - 2);
}

static size *class_of(void *block) {
    return (size *)((byte *)block - HEADER);
}

/* Makes the memory hold so many bytes more behind the last block. Answers whether it does. A memory that does not grow answers -1;
   where the module was lowered to a 32-bit memory, that is widened without its sign. No memory has so many pages. */
static int grow(size bytes) {
    size missing = bytes - (size)(end_of_memory - end_of_blocks);
    size pages = (missing + PAGE - 1) / PAGE;
    if (__builtin_wasm_memory_grow(0, pages) >= 0xFFFFFFFF) {
        return 0;
    }
    end_of_memory += pages * PAGE;
    return 1;
}

/* Bytes behind the last block, or none. */
static byte *taken(size bytes) {
    if (!end_of_blocks) {
        end_of_blocks = (byte *)(((size)&__heap_base + HEADER - 1) / HEADER * HEADER);
        end_of_memory = (byte *)(__builtin_wasm_memory_size(0) * PAGE);
    }
    if ((size)(end_of_memory - end_of_blocks) < bytes && !grow(bytes)) {
        return 0;
    }
    byte *bytes_there = end_of_blocks;
    end_of_blocks += bytes;
    return bytes_there;
}

/* A block of a class, behind its header at these bytes. */
static struct block *made(byte *bytes_there, size class) {
    *(size *)bytes_there = class;
    return (struct block *)(bytes_there + HEADER);
}

/* The last block that was freed of a class, which is free no more, or none. */
static struct block *free_block(size class) {
    struct block *block = freed[class];
    if (block) {
        freed[class] = block->next;
    }
    return block;
}

/* Frees bytes as the greatest blocks that they hold, one behind the other. */
static void free_rest(byte *rest, size bytes) {
    while (bytes >= LEAST) {
        size class = class_for(bytes);
        if (bytes_in(class) > bytes) {
            class--;
        }
        free(made(rest, class));
        rest += bytes_in(class);
        bytes -= bytes_in(class);
    }
}

/* A block of a class, cut from the least greater one that is free, or none. */
static struct block *cut(size class) {
    for (size greater = class + 1; greater < CLASSES; greater++) {
        struct block *block = free_block(greater);
        if (block) {
            byte *bytes_there = (byte *)class_of(block);
            free_rest(bytes_there + bytes_in(class), bytes_in(greater) - bytes_in(class));
            return made(bytes_there, class);
        }
    }
    return 0;
}

void *malloc(size bytes) {
    if (bytes > LIMIT) {
        return 0;
    }
    size class = class_for(bytes < LEAST - HEADER ? LEAST : bytes + HEADER);
    struct block *block = free_block(class);
    if (block) {
        return block;
    }
    byte *bytes_there = taken(bytes_in(class));
    return bytes_there ? made(bytes_there, class) : cut(class);
}

void free(void *block) {
    if (!block) {
        return;
    }
    size class = *class_of(block);
    ((struct block *)block)->next = freed[class];
    freed[class] = block;
}

static void *resized(void *block, size bytes) {
    size had = bytes_in(*class_of(block)) - HEADER;
    if (bytes <= had) {
        return block;
    }
    void *other = malloc(bytes);
    if (other) {
        __builtin_memcpy(other, block, had);
        free(block);
    }
    return other;
}

/* What the proved library calls: whether there is a block, and where. Without bytes a block still has its alignment. */
struct tried {
    size found;
    void *block;
};

static byte nothing;

static struct tried tried(void *block) {
    return (struct tried){block != 0, block ? block : &nothing};
}

struct tried rattle_alloc(size bytes, size alignment) {
    return tried(malloc(bytes ? bytes : alignment));
}

struct tried rattle_realloc(void *block, size kept, size bytes, size alignment) {
    (void)kept;
    return tried(resized(block, bytes ? bytes : alignment));
}

void rattle_dealloc(void *block) {
    free(block);
}

/* What a compiler calls by name. */
void *memcpy(void *to, const void *from, size bytes) {
    return __builtin_memcpy(to, from, bytes);
}

void *memmove(void *to, const void *from, size bytes) {
    return __builtin_memmove(to, from, bytes);
}

void *memset(void *to, int value, size bytes) {
    return __builtin_memset(to, value, bytes);
}

union wide {
    __int128 all;
    struct {
        size low, high;
    } half;
};

/* The product of two numbers of 64 bits, by halves. */
static union wide product(size a, size b) {
    size low = 0xFFFFFFFF, a_low = a & low, a_high = a >> 32, b_low = b & low, b_high = b >> 32;
    size first = a_low * b_low;
    size second = a_high * b_low + (first >> 32);
    size third = a_low * b_high + (second & low);
    union wide whole;
    whole.half.low = (third << 32) + (first & low);
    whole.half.high = a_high * b_high + (second >> 32) + (third >> 32);
    return whole;
}

__int128 __multi3(__int128 a, __int128 b) {
    union wide x = {a}, y = {b};
    union wide whole = product(x.half.low, y.half.low);
    whole.half.high += x.half.high * y.half.low + x.half.low * y.half.high;
    return whole.all;
}
