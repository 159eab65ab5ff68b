// The heap of the page's module, which Rattle's `Global` uses: blocks of powers of two from 32 bytes on, each after 16 bytes that
// hold its power. Freed blocks are kept by size. Nothing proves this file.
typedef unsigned long Size;
extern unsigned char __heap_base[];
static Size top;
static unsigned char *freed[48];
static Size limit = 2UL << 30;

// The page may want a smaller heap: bytes of memory in all.
__attribute__((export_name("heap_limit"))) void heap_limit(Size bytes) { limit = bytes; }

static int power_of(Size count) {
    int power = 5;
    while ((1UL << power) < count + 16) power++;
    return power;
}

static unsigned char *fresh(Size count) {
    if (!top) top = ((Size)__heap_base + 15) & ~15UL;
    if (count > limit || top + count > limit) return 0;
    Size have = __builtin_wasm_memory_size(0) << 16;
    if (top + count > have) {
        Size more = (top + count - have + 65535) >> 16, twice = have >> 16;
        Size none = (Size)-1;
        if (__builtin_wasm_memory_grow(0, more > twice ? more : twice) == none
            && __builtin_wasm_memory_grow(0, more) == none) return 0;
    }
    unsigned char *block = (unsigned char *)top;
    top += count;
    return block;
}

unsigned char *heap_alloc(Size count, Size align) {
    if (count == 0) count = align;
    if (count >= 1UL << 40 || align > 16) return 0;
    int power = power_of(count);
    unsigned char *block = freed[power];
    if (block) freed[power] = *(unsigned char **)(block + 16);
    else if (!(block = fresh(1UL << power))) return 0;
    *(Size *)block = power;
    return block + 16;
}

void heap_free(unsigned char *bytes) {
    unsigned char *block = bytes - 16;
    int power = *(Size *)block;
    *(unsigned char **)(block + 16) = freed[power];
    freed[power] = block;
}

unsigned char *heap_realloc(unsigned char *bytes, Size kept, Size count, Size align) {
    if (count == 0) count = align;
    int power = *(Size *)(bytes - 16);
    if (count + 16 <= 1UL << power) return bytes;
    unsigned char *larger = heap_alloc(count, align);
    if (!larger) return 0;
    __builtin_memcpy(larger, bytes, (1UL << power) - 16);
    heap_free(bytes);
    return larger;
}
