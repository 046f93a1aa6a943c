/* 128-bit arithmetic, which LLVM calls if the machine has none: product, shifts, quotient. */
typedef unsigned long u64;
typedef unsigned __int128 u128;
typedef union { u128 all; struct { u64 low, high; }; } pair;

u128 __multi3(u128 x, u128 y)
{
    pair a = { x }, b = { y }, r;
    u64 al = (unsigned)a.low, ah = a.low >> 32, bl = (unsigned)b.low, bh = b.low >> 32;
    u64 low = al * bl, one = al * bh, two = ah * bl, mid = (low >> 32) + (unsigned)one + (unsigned)two;
    r.low = (unsigned)low | mid << 32;
    r.high = ah * bh + (one >> 32) + (two >> 32) + (mid >> 32) + a.low * b.high + a.high * b.low;
    return r.all;
}

u128 __ashlti3(u128 x, int n)
{
    pair a = { x }, r = { x };
    if (n & 64) r.low = 0, r.high = a.low << (n & 63);
    else if (n & 63) r.low = a.low << n, r.high = a.high << n | a.low >> (64 - n);
    return r.all;
}

u128 __lshrti3(u128 x, int n)
{
    pair a = { x }, r = { x };
    if (n & 64) r.high = 0, r.low = a.high >> (n & 63);
    else if (n & 63) r.high = a.high >> n, r.low = a.low >> n | a.high << (64 - n);
    return r.all;
}

u128 __udivti3(u128 x, u128 y)
{
    u128 quotient = 0, rest = 0;
    for (int i = 127; i >= 0; i--) {
        rest = rest << 1 | (x >> i & 1);
        if (rest >= y) rest -= y, quotient |= (u128)1 << i;
    }
    return quotient;
}
