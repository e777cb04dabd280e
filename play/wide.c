// What LLVM leaves to a library of numbers of 128 bits, which the toolchain lacks for WebAssembly. Nothing proves it; tests/test_heap.py tries it.
typedef unsigned long u64;
typedef unsigned __int128 wide;

static wide joined(u64 high, u64 low) { return (wide)high << 64 | low; }

wide __multi3(wide a, wide b) {
    const u64 half = 0xffffffff;
    u64 al = (u64)a, bl = (u64)b, ah = (u64)(a >> 64), bh = (u64)(b >> 64);
    u64 low = (al & half) * (bl & half), across = (al >> 32) * (bl & half), down = (al & half) * (bl >> 32);
    u64 middle = (low >> 32) + (across & half) + (down & half);
    u64 high = (al >> 32) * (bl >> 32) + (across >> 32) + (down >> 32) + (middle >> 32);
    return joined(high + al * bh + ah * bl, middle << 32 | (low & half));
}

wide __ashlti3(wide a, int by) {
    u64 low = (u64)a, high = (u64)(a >> 64);
    if (by == 0) return a;
    return by < 64 ? joined(high << by | low >> (64 - by), low << by) : joined(low << (by - 64), 0);
}

wide __lshrti3(wide a, int by) {
    u64 low = (u64)a, high = (u64)(a >> 64);
    if (by == 0) return a;
    return by < 64 ? joined(high >> by, low >> by | high << (64 - by)) : joined(0, high >> (by - 64));
}
