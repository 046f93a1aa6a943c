/* The heap of jobk in a page: the C library functions that its WebAssembly calls. This file is not proved; `tests/page`
   runs all cases with it. */
typedef unsigned long u64;
typedef struct { u64 ok; void *p; } tried;

/* A block has 2^k or 3 * 2^k bytes, at least 16. The 16 bytes before it hold its class. Each class has a list of freed
   blocks. The memory grows by a quarter, or by what a block needs. It is released with the instance of the run. */
enum { CLASSES = 96 };
extern unsigned char __heap_base;
static void *freed[CLASSES];
static u64 next, end;

static u64 class_of(u64 n, u64 *size)
{
    u64 two = 16, class = 0;
    for (; n > two + two / 2; two *= 2) class += 2;
    if (n <= two) *size = two;
    else *size = two + two / 2, class++;
    return class;
}

static int grow_by(u64 pages)
{
    /* compares 32 bits, because wasm-opt also lowers this module to 32-bit memories */
    if ((unsigned)__builtin_wasm_memory_grow(0, pages) == -1u) return 0;
    end += pages << 16;
    return 1;
}

static int grow(u64 bytes)
{
    u64 least = (bytes + 65535) >> 16, more = end >> 18;
    return (more > least && grow_by(more)) || grow_by(least);
}

static void *block(u64 n)
{
    u64 size, class, whole, *at;
    if (n >> 40) return 0;
    class = class_of(n, &size);
    if (freed[class]) {
        void **one = freed[class];
        freed[class] = *one;
        return one;
    }
    if (!next) next = ((u64)&__heap_base + 15) & -16ul, end = __builtin_wasm_memory_size(0) << 16;
    whole = 16 + ((size + 15) & -16ul);
    if (whole > end - next && !grow(whole - (end - next))) return 0;
    at = (u64 *)next;
    next += whole;
    at[1] = class;
    return at + 2;
}

tried rattle_alloc(u64 n, u64 align)
{
    void *p = block(n);
    return (tried){ p != 0, p };
}

void rattle_dealloc(void *p)
{
    u64 class = ((u64 *)p)[-1];
    *(void **)p = freed[class];
    freed[class] = p;
}

tried rattle_realloc(void *p, u64 kept, u64 n, u64 align)
{
    u64 size;
    void *to;
    if (!(n >> 40) && class_of(n, &size) == ((u64 *)p)[-1]) return (tried){ 1, p };
    to = block(n);
    if (!to) return (tried){ 0, p };
    __builtin_memcpy(to, p, kept < n ? kept : n);
    rattle_dealloc(p);
    return (tried){ 1, to };
}

/* Returns room for n bytes that the page writes, or 0 if there is no memory. */
void *room(u64 n) { return block(n); }
