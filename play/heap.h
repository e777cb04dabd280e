// The heap of the engine's module: what it gives, and the memory that it stands on.
typedef unsigned char u8;
typedef unsigned long u64;
_Static_assert(sizeof(u64) == 8 && sizeof(void *) == 8, "places and sizes have 64 bits");

// A block of at least so many bytes, at a multiple of 16; 0 where memory is wanting.
void *take(u64 size);
// Gives a block back.
void give(void *block);

// Where the heap's memory begins.
u64 heap_start(void);
// Makes the heap's memory reach this place, if that can be, and tells where it ends.
u64 heap_end(u64 wanted);
