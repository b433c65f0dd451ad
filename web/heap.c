/* What the library wants of C where there is no C library, in WebAssembly: a heap, and a few
 * functions. The heap is one region that grows, and is taken back whole by page_reset before each
 * call. */
typedef unsigned long size_t;
typedef struct {
    _Bool ok;
    unsigned char *block;
} tried;

extern unsigned char __heap_base;
static unsigned char *front;
static unsigned char nothing;

/* Whether the memory goes up to here, if need be after it has grown. */
static _Bool reaches(size_t end) {
    size_t there = __builtin_wasm_memory_size(0) << 16;
    return end <= there || __builtin_wasm_memory_grow(0, (end - there + 65535) >> 16) != (size_t)-1;
}

/* A block of this size at a multiple of 16, with its size right in front of it. */
static tried give(size_t size) {
    if (!front) front = &__heap_base;
    unsigned char *block = (unsigned char *)(((size_t)front + 31) & ~(size_t)15);
    size_t end = (size_t)block + size;
    if (end < size || !reaches(end)) return (tried){0, &nothing};
    ((size_t *)block)[-1] = size;
    front = block + size;
    return (tried){1, block};
}

tried rattle_alloc(size_t size, size_t alignment) { return give(size ? size : alignment); }

tried rattle_realloc(unsigned char *block, size_t kept, size_t size, size_t alignment) {
    size_t old = ((size_t *)block)[-1];
    (void)kept;
    if (!size) size = alignment;
    if (size <= old) return (tried){1, block};
    tried it = give(size);
    if (it.ok) __builtin_memcpy(it.block, block, old);
    return it;
}

void rattle_dealloc(unsigned char *block) { (void)block; }

/* For the page: memory for the arguments of the next call, or 0; and all memory back. */
unsigned char *page_alloc(size_t size) {
    tried it = give(size);
    return it.ok ? it.block : 0;
}

void page_reset(void) { front = &__heap_base; }

void *memcpy(void *to, const void *from, size_t count) {
    unsigned char *out = to;
    const unsigned char *in = from;
    while (count--) *out++ = *in++;
    return to;
}

void *memset(void *to, int byte, size_t count) {
    unsigned char *out = to;
    while (count--) *out++ = (unsigned char)byte;
    return to;
}

void *memmove(void *to, const void *from, size_t count) {
    unsigned char *out = to;
    const unsigned char *in = from;
    if (out < in)
        while (count--) *out++ = *in++;
    else
        while (count--) out[count] = in[count];
    return to;
}

int memcmp(const void *one, const void *other, size_t count) {
    const unsigned char *a = one, *b = other;
    for (; count--; a++, b++)
        if (*a != *b) return *a - *b;
    return 0;
}

int bcmp(const void *one, const void *other, size_t count) { return memcmp(one, other, count); }

/* What clang calls for whole numbers of 16 bytes. */
typedef unsigned __int128 wide;
typedef union {
    wide whole;
    struct {
        unsigned long low, high;
    } parts;
} pair;

__int128 __multi3(__int128 one, __int128 other) {
    pair a = {.whole = (wide)one}, b = {.whole = (wide)other};
    const unsigned long half = 0xffffffff;
    unsigned long a0 = a.parts.low & half, a1 = a.parts.low >> 32, b0 = b.parts.low & half,
                  b1 = b.parts.low >> 32;
    unsigned long low = a0 * b0, middle = a1 * b0 + (low >> 32), more = a0 * b1 + (middle & half);
    unsigned long high = a1 * b1 + (middle >> 32) + (more >> 32) + a.parts.high * b.parts.low +
                         a.parts.low * b.parts.high;
    pair product = {.parts = {(more << 32) | (low & half), high}};
    return (__int128)product.whole;
}

__int128 __ashlti3(__int128 value, int count) {
    pair x = {.whole = (wide)value}, y;
    count &= 127;
    y.parts.high = count == 0   ? x.parts.high
                   : count < 64 ? x.parts.high << count | x.parts.low >> (64 - count)
                                : x.parts.low << (count - 64);
    y.parts.low = count < 64 ? x.parts.low << count : 0;
    return (__int128)y.whole;
}

__int128 __lshrti3(__int128 value, int count) {
    pair x = {.whole = (wide)value}, y;
    count &= 127;
    y.parts.low = count == 0   ? x.parts.low
                  : count < 64 ? x.parts.low >> count | x.parts.high << (64 - count)
                               : x.parts.high >> (count - 64);
    y.parts.high = count < 64 ? x.parts.high >> count : 0;
    return (__int128)y.whole;
}

wide __udivti3(wide above, wide below) {
    wide quotient = 0, rest = 0;
    for (int bit = 0; bit < 128; bit++) {
        _Bool carry = rest >> 127;
        rest = rest << 1 | above >> 127;
        above <<= 1;
        quotient <<= 1;
        if (carry || rest >= below) {
            rest -= below;
            quotient |= 1;
        }
    }
    return quotient;
}
