/* The heap of the module, for one call at a time: blocks one above the other, from the end of the module's own data on. The last block
 * grows and goes in its place, and nothing else is given back: the memory goes with the instance.
 *
 * The library asks here for what malloc, realloc and free give it elsewhere, and the module's caller for room for arguments. This is C, and
 * nothing proves it.
 */
typedef unsigned long u64;

/* What a request comes to, as the library takes it: whether there is a block, and where. */
struct tried {
    u64 ok, at;
};

#define PAGE 65536ul
/* The library asks for no stricter alignment. */
#define ALIGNMENT 16ul

extern unsigned char __heap_base;

/* Where the next block begins, and where the last one does. */
static u64 top, last;

/* Makes so many bytes from here on the last block; false, where there is no memory for them. */
static int take(u64 from, u64 size) {
    u64 end = from + size, has = __builtin_wasm_memory_size(0) * PAGE;
    if (end < from || size >> 62) return 0;
    if (end > has) {
        u64 pages = (end - has) / PAGE + 1, spare = has / PAGE / 4; /* by a quarter, so that it seldom grows */
        if (__builtin_wasm_memory_grow(0, pages > spare ? pages : spare) == -1ul && __builtin_wasm_memory_grow(0, pages) == -1ul) return 0;
    }
    last = from;
    top = end;
    return 1;
}

struct tried rattle_alloc(u64 size, u64 alignment) {
    u64 at = ((top ? top : (u64)&__heap_base) + ALIGNMENT - 1) & ~(ALIGNMENT - 1);
    struct tried found = {1, at}, none = {0, ALIGNMENT};
    return alignment <= ALIGNMENT && take(at, size) ? found : none;
}

struct tried rattle_realloc(void *block, u64 kept, u64 size, u64 alignment) {
    struct tried same = {1, (u64)block}, none = {0, ALIGNMENT}, other;
    if ((u64)block == last) return take(last, size) ? same : none;
    other = rattle_alloc(size, alignment);
    if (other.ok) __builtin_memcpy((void *)other.at, block, kept < size ? kept : size);
    return other;
}

void rattle_dealloc(void *block) {
    if ((u64)block == last) {
        top = last;
        last = 0;
    }
}

/* Room for an argument; 0, where there is none. */
__attribute__((export_name("heap_alloc"))) u64 heap_alloc(u64 size) {
    struct tried found = rattle_alloc(size, ALIGNMENT);
    return found.ok ? found.at : 0;
}
