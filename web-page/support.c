/* What the module needs of C: a heap, arithmetic of 128 bits, and memory for the page. */

/* The heap: blocks of 2^k bytes, each with its k before it, and a list of free blocks for each k. */
typedef unsigned long size;
typedef unsigned char byte;

struct tried {
    unsigned long ok; /* 1 if there is a block */
    byte *block;
};

struct block {
    struct block *next; /* of a free block: the next one of as many bytes */
    size power;
};

enum { HEAD = sizeof(struct block), LEAST = 5, MOST = 40, PAGE = 65536 };

extern byte __heap_base;
static struct block *free_blocks[MOST + 1];
static size top; /* where the memory that was never used begins */

struct tried rattle_alloc(size bytes, size align)
{
    const struct tried none = {0, 0};
    (void)align; /* at most 16, and so is each block's */
    if (bytes > (size)1 << (MOST - 1))
        return none;
    size power = LEAST;
    while (((size)1 << power) < bytes + HEAD)
        power++;
    struct block *it = free_blocks[power];
    if (it) {
        free_blocks[power] = it->next;
    } else {
        if (top == 0)
            top = ((size)&__heap_base + 15) / 16 * 16;
        const size end = top + ((size)1 << power), need = (end + PAGE - 1) / PAGE;
        const size have = __builtin_wasm_memory_size(0);
        if (need > have) {
            __builtin_wasm_memory_grow(0, need - have);
            if (__builtin_wasm_memory_size(0) < need)
                return none;
        }
        it = (struct block *)top;
        it->power = power;
        top = end;
    }
    return (struct tried){1, (byte *)it + HEAD};
}

void rattle_dealloc(byte *block)
{
    if (!block)
        return;
    struct block *it = (struct block *)(block - HEAD);
    it->next = free_blocks[it->power];
    free_blocks[it->power] = it;
}

struct tried rattle_realloc(byte *block, size kept, size bytes, size align)
{
    struct block *it = (struct block *)(block - HEAD);
    if (bytes + HEAD <= (size)1 << it->power)
        return (struct tried){1, block};
    const struct tried made = rattle_alloc(bytes, align);
    if (made.ok) {
        __builtin_memcpy(made.block, block, kept);
        rattle_dealloc(block);
    }
    return made;
}

/* Arithmetic of 128 bits, which clang calls by these names. */
typedef unsigned long half;
typedef union {
    unsigned __int128 all;
    struct {
        half low, high;
    } part;
} wide;

unsigned __int128 __multi3(unsigned __int128 a, unsigned __int128 b)
{
    const wide x = {a}, y = {b};
    const half mask = 0xffffffff;
    const half x0 = x.part.low & mask, x1 = x.part.low >> 32, y0 = y.part.low & mask, y1 = y.part.low >> 32;
    const half low = x0 * y0, mid = x1 * y0 + (low >> 32), mid2 = x0 * y1 + (mid & mask);
    wide made;
    made.part.low = mid2 << 32 | (low & mask);
    made.part.high = x1 * y1 + (mid >> 32) + (mid2 >> 32) + x.part.low * y.part.high + x.part.high * y.part.low;
    return made.all;
}

unsigned __int128 __ashlti3(unsigned __int128 a, int by)
{
    wide x = {a};
    if (by >= 64) {
        x.part.high = x.part.low << (by - 64);
        x.part.low = 0;
    } else if (by) {
        x.part.high = x.part.high << by | x.part.low >> (64 - by);
        x.part.low <<= by;
    }
    return x.all;
}

unsigned __int128 __lshrti3(unsigned __int128 a, int by)
{
    wide x = {a};
    if (by >= 64) {
        x.part.low = x.part.high >> (by - 64);
        x.part.high = 0;
    } else if (by) {
        x.part.low = x.part.low >> by | x.part.high << (64 - by);
        x.part.high >>= by;
    }
    return x.all;
}

/* Memory for the page: the bytes of words, of an input and of an output. */
byte *ca_take(size bytes)
{
    return rattle_alloc(bytes, 16).block;
}

void ca_give(byte *block)
{
    rattle_dealloc(block);
}
