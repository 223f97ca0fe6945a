/* Multiplication, division and shifts of 128 bits, which LLVM calls by name on wasm64. They work on halves: an operation of 128 bits
   here would call itself. */
typedef unsigned long long u64;
typedef unsigned __int128 u128;

typedef union {
    u128 whole;
    struct {
        u64 low, high;
    };
} halves;

u128 __multi3(u128 x, u128 y) {
    halves a = {x}, b = {y}, product;
    u64 a_low = (unsigned)a.low, a_high = a.low >> 32, b_low = (unsigned)b.low, b_high = b.low >> 32;
    u64 first = a_low * b_low, middle = a_high * b_low + (first >> 32), other = a_low * b_high + (unsigned)middle;
    product.low = other << 32 | (unsigned)first;
    product.high = a_high * b_high + (middle >> 32) + (other >> 32) + a.low * b.high + a.high * b.low;
    return product.whole;
}

u128 __ashlti3(u128 x, int by) {
    halves a = {x}, shifted;
    if (by & 64) {
        shifted.low = 0;
        shifted.high = a.low << (by & 63);
    } else {
        shifted.low = a.low << (by & 63);
        shifted.high = a.high << (by & 63) | a.low >> 1 >> (63 - (by & 63));
    }
    return shifted.whole;
}

u128 __lshrti3(u128 x, int by) {
    halves a = {x}, shifted;
    if (by & 64) {
        shifted.low = a.high >> (by & 63);
        shifted.high = 0;
    } else {
        shifted.low = a.low >> (by & 63) | a.high << 1 << (63 - (by & 63));
        shifted.high = a.high >> (by & 63);
    }
    return shifted.whole;
}

__int128 __ashrti3(__int128 x, int by) {
    halves a = {(u128)x}, shifted;
    long long top = (long long)a.high;
    if (by & 64) {
        shifted.low = (u64)(top >> (by & 63));
        shifted.high = (u64)(top >> 63);
    } else {
        shifted.low = a.low >> (by & 63) | a.high << 1 << (63 - (by & 63));
        shifted.high = (u64)(top >> (by & 63));
    }
    return (__int128)shifted.whole;
}

/* The quotient, bit by bit; the rest is written to `rest`. */
static u128 divided(u128 x, u128 y, halves *rest) {
    halves left = {x}, by = {y}, quotient = {0};
    rest->low = rest->high = 0;
    if (!left.high && !by.high) {
        quotient.low = left.low / by.low;
        rest->low = left.low % by.low;
        return quotient.whole;
    }
    for (int bit = 0; bit < 128; bit++) {
        u64 out = rest->high >> 63;
        rest->high = rest->high << 1 | rest->low >> 63;
        rest->low = rest->low << 1 | left.high >> 63;
        left.high = left.high << 1 | left.low >> 63;
        left.low = left.low << 1;
        quotient.high = quotient.high << 1 | quotient.low >> 63;
        quotient.low = quotient.low << 1;
        if (out || rest->high > by.high || (rest->high == by.high && rest->low >= by.low)) {
            rest->high = rest->high - by.high - (rest->low < by.low);
            rest->low = rest->low - by.low;
            quotient.low |= 1;
        }
    }
    return quotient.whole;
}

u128 __udivti3(u128 x, u128 y) {
    halves rest;
    return divided(x, y, &rest);
}

u128 __umodti3(u128 x, u128 y) {
    halves rest;
    divided(x, y, &rest);
    return rest.whole;
}
