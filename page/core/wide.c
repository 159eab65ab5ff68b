// The product of 128 bits, which WebAssembly has no instruction for: the compiler calls it where a product of 64 bits may
// overflow. Nothing proves this file.
typedef unsigned long Size;
typedef unsigned __int128 Wide;

// (Not optimised, or the compiler may find its own product of 128 bits here.)
__attribute__((optnone, noinline)) Wide __multi3(Wide a, Wide b) {
    Size low_a = (Size)a, low_b = (Size)b, a0 = low_a & 0xffffffff, a1 = low_a >> 32, b0 = low_b & 0xffffffff, b1 = low_b >> 32;
    Size least = a0 * b0, middle = a1 * b0 + (least >> 32), other = a0 * b1 + (middle & 0xffffffff);
    Size high = a1 * b1 + (middle >> 32) + (other >> 32) + low_a * (Size)(b >> 64) + (Size)(a >> 64) * low_b;
    return (Wide)high << 64 | (other << 32 | (least & 0xffffffff));
}
