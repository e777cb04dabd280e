/* Tries the heap of the engine's module, and its numbers of 128 bits, compiled for this machine: heap_trial SEED STEPS LIMIT
 *
 * Takes, resizes and gives back blocks as it happens, of which each is filled with bytes of its own that are looked at again, and gives all back now
 * and then; the memory reaches LIMIT bytes and no further. It tells how often memory was wanting, and ends with 1 where anything is wrong. */
#include <stdio.h>
#include <stdlib.h>
#include <string.h>
#include <sanitizer/asan_interface.h>
#include "../play/heap.h"

struct tried { u64 ok, block; };
struct tried rattle_alloc(u64 size, u64 alignment);
struct tried rattle_realloc(void *block, u64 kept, u64 size, u64 alignment);
void rattle_dealloc(void *block);
typedef unsigned __int128 wide;
wide wide_times(wide a, wide b), wide_left(wide a, int by), wide_right(wide a, int by);

enum { BLOCKS = 300 };
static struct { u8 *at; u64 size; u8 mark; } blocks[BLOCKS];
static u8 *memory;
static u64 limit, reached, state;

u64 heap_start(void) { return (u64)memory + 5; }

/* What lies behind the heap's memory is no longer, or not yet, to be touched. */
u64 heap_end(u64 wanted) {
    if (wanted > (u64)memory + reached && wanted <= (u64)memory + limit) {
        reached = wanted - (u64)memory;
        ASAN_UNPOISON_MEMORY_REGION(memory, reached);
    }
    return (u64)memory + reached;
}

static u64 any(void) {
    state ^= state << 13, state ^= state >> 7, state ^= state << 17;
    return state;
}

static void demand(int holds, const char *what) {
    if (holds) return;
    printf("%s\n", what);
    exit(1);
}

/* Sizes of all magnitudes, and more often the last of a kind and the first of the next. */
static u64 any_size(void) {
    u64 power = 1ul << any() % 17;
    return any() % 4 ? any() % (2 * power) : power + any() % 3 - 1;
}

static u8 byte_at(u8 mark, u64 at) { return (u8)(mark + at * 7 + (at >> 8)); }

static void fill(int i, u64 from) {
    for (u64 at = from; at < blocks[i].size; at++) blocks[i].at[at] = byte_at(blocks[i].mark, at);
}

static void look(int i, u64 size) {
    for (u64 at = 0; at < size; at++) demand(blocks[i].at[at] == byte_at(blocks[i].mark, at), "a block lost its bytes");
}

static int keep(int i, struct tried tried, u64 size) {
    demand(tried.block != 0, "a place is 0");
    if (!tried.ok) return 0;
    demand(tried.block % 16 == 0, "a block lies askew");
    demand(tried.block >= heap_start() && tried.block + size <= (u64)memory + reached, "a block lies outside");
    blocks[i].at = (u8 *)tried.block, blocks[i].size = size;
    return 1;
}

static int step(int i) {
    u64 size = any_size(), old = blocks[i].size;
    if (!blocks[i].at) {
        blocks[i].mark = (u8)any();
        if (!keep(i, rattle_alloc(size, 16), size)) return 0;
        fill(i, 0);
    } else if (any() % 3) {
        look(i, old);
        rattle_dealloc(blocks[i].at);
        blocks[i].at = 0;
    } else {
        int went = keep(i, rattle_realloc(blocks[i].at, old, old + size, 16), old + size);
        look(i, old);
        if (!went) return 0;
        fill(i, old);
    }
    return 1;
}

static wide any_wide(void) {
    static const u64 edges[] = {0, 1, 2, 0x7fffffff, 0x80000000, 0xffffffff, 0x100000000, 0x7fffffffffffffff, 0x8000000000000000, 0xffffffffffffffff};
    u64 high = any() % 2 ? edges[any() % 10] : any(), low = any() % 2 ? edges[any() % 10] : any();
    return (wide)high << 64 | low;
}

static void try_wide(void) {
    wide a = any_wide(), b = any_wide();
    int by = (int)(any() % 128);
    demand(wide_times(a, b) == a * b, "a product is wrong");
    demand(wide_left(a, by) == a << by, "a shift to the left is wrong");
    demand(wide_right(a, by) == a >> by, "a shift to the right is wrong");
}

/* Gives all blocks back: the next one is again the first. */
static void give_all(void) {
    for (int i = 0; i < BLOCKS; i++) {
        if (!blocks[i].at) continue;
        look(i, blocks[i].size);
        rattle_dealloc(blocks[i].at);
        blocks[i].at = 0;
    }
    u8 *first = take(1);
    demand(first == (u8 *)((heap_start() + 15) / 16 * 16 + 16), "the heap does not begin anew");
    give(first);
}

int main(int count, char **words) {
    demand(count == 4, "heap_trial SEED STEPS LIMIT");
    state = strtoul(words[1], 0, 10) * 2 + 1, limit = strtoul(words[3], 0, 10);
    memory = malloc(limit);
    demand(memory != 0, "no memory for the trial");
    ASAN_POISON_MEMORY_REGION(memory, limit);
    u64 wanting = 0;
    demand(!take(~0ul) && !take((1ul << 32) + 1), "more was given than there can be");
    for (u64 steps = strtoul(words[2], 0, 10); steps > 0; steps--) {
        wanting += !step((int)(any() % BLOCKS));
        try_wide();
        if (steps % 1000 == 1) give_all();
    }
    printf("%lu\n", wanting);
    ASAN_UNPOISON_MEMORY_REGION(memory, limit);
    free(memory);
    return 0;
}
