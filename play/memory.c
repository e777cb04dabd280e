// The memory of the engine's module, and the one call of the system that is left in it.
#include "heap.h"

enum { PAGE = 65536 };
extern u8 __heap_base;

u64 heap_start(void) { return (u64)&__heap_base; }

u64 heap_end(u64 wanted) {
    u64 held = __builtin_wasm_memory_size(0) * PAGE;
    if (wanted > held) __builtin_wasm_memory_grow(0, (wanted - held + PAGE - 1) / PAGE);
    return __builtin_wasm_memory_size(0) * PAGE;
}

// What an error of the system is in words. No call of the system is made here, so there is none.
int __xpg_strerror_r(int error, char *words, u64 room) {
    (void)error, (void)words, (void)room;
    __builtin_trap();
}
