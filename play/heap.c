// The heap of the engine's module, in place of the C library's. Its blocks are of some hundred sizes and are never split or joined: one that is
// given back waits in the list of its size until one of that size is taken. Once all were given back, as after each call of the page, the heap
// begins anew. Nothing proves it; tests/test_heap.py tries it.
#include "heap.h"

enum { HEAD = 16, SIZES = 108 }; // before each block stands the number of its size
static const u64 LARGEST = 1ul << 32, STEP = 1ul << 20;
static void *waiting[SIZES];
static u64 top, end; // between them lies what was never given out
static u64 out;      // how many blocks are

// The sizes are 16, 32, 48 and 64 bytes, and then four on the way to each next double.
static unsigned number_of(u64 size) {
    if (size <= 64) return size == 0 ? 0 : (unsigned)((size - 1) / 16);
    unsigned doubles = 63 - (unsigned)__builtin_clzl(size - 1);
    return (doubles - 5) * 4 + (unsigned)((size - 1) >> (doubles - 2) & 3);
}

static u64 size_of(unsigned number) {
    return number < 4 ? (number + 1) * 16ul : (number % 4 + 5ul) << (number / 4 + 3);
}

// The first bytes that were never given out. The memory grows by a step, or by as much as is needed where it can't.
static u8 *first_bytes(u64 size) {
    if (top == 0) top = (heap_start() + 15) & ~15ul;
    if (top + size > end) end = heap_end(top + size + STEP);
    if (top + size > end) end = heap_end(top + size);
    if (top + size > end) return 0;
    u8 *bytes = (u8 *)top;
    top += size;
    return bytes;
}

void *take(u64 size) {
    if (size > LARGEST) return 0;
    unsigned number = number_of(size);
    void *block = waiting[number];
    if (block) {
        waiting[number] = *(void **)block;
    } else {
        u8 *bytes = first_bytes(HEAD + size_of(number));
        if (!bytes) return 0;
        *(u64 *)bytes = number;
        block = bytes + HEAD;
    }
    out++;
    return block;
}

static unsigned number_at(void *block) { return (unsigned)*(u64 *)((u8 *)block - HEAD); }

void give(void *block) {
    unsigned number = number_at(block);
    *(void **)block = waiting[number];
    waiting[number] = block;
    if (--out > 0) return;
    top = 0;
    for (number = 0; number < SIZES; number++) waiting[number] = 0;
}

// What the compiled engine calls: whether there was memory, and the block. Alignments divide 16. Where there was none the place is any but 0.
struct tried { u64 ok, block; };

struct tried rattle_alloc(u64 size, u64 alignment) {
    (void)alignment;
    void *block = take(size);
    return (struct tried){block != 0, block ? (u64)block : 16};
}

struct tried rattle_realloc(void *block, u64 kept, u64 size, u64 alignment) {
    if (size <= size_of(number_at(block))) return (struct tried){1, (u64)block};
    struct tried larger = rattle_alloc(size, alignment);
    if (!larger.ok) return larger;
    __builtin_memcpy((void *)larger.block, block, kept);
    give(block);
    return larger;
}

void rattle_dealloc(void *block) { give(block); }
