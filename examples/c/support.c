/* Functions that a compiler calls on its own: of memory, and of what PISA has no instruction for. */

#include <stddef.h>

typedef unsigned long long wide;

void *memset(void *to, int byte, size_t length) {
    char *place = to;
    while (length-- > 0)
        *place++ = (char)byte;
    return to;
}

void *memcpy(void *to, const void *from, size_t length) {
    char *place = to;
    const char *next = from;
    while (length-- > 0)
        *place++ = *next++;
    return to;
}

void *memmove(void *to, const void *from, size_t length) {
    char *place = to;
    const char *next = from;
    if (place <= next)
        return memcpy(to, from, length);
    while (length-- > 0)
        place[length] = next[length];
    return to;
}

int memcmp(const void *left, const void *right, size_t length) {
    const unsigned char *a = left, *b = right;
    for (; length > 0; length--, a++, b++)
        if (*a != *b)
            return *a - *b;
    return 0;
}

/* Shifts of 64 bits, by words. */
wide __ashldi3(wide value, int by) {
    unsigned low = (unsigned)value, high = (unsigned)(value >> 32);
    if (by == 0)
        return value;
    if (by >= 32)
        return (wide)(low << (by - 32)) << 32;
    return (wide)(high << by | low >> (32 - by)) << 32 | low << by;
}

wide __lshrdi3(wide value, int by) {
    unsigned low = (unsigned)value, high = (unsigned)(value >> 32);
    if (by == 0)
        return value;
    if (by >= 32)
        return high >> (by - 32);
    return (wide)(high >> by) << 32 | (low >> by | high << (32 - by));
}

long long __ashrdi3(long long value, int by) {
    unsigned low = (unsigned)value;
    int high = (int)(value >> 32);
    if (by == 0)
        return value;
    if (by >= 32)
        return high >> (by - 32);
    return (long long)((wide)(unsigned)(high >> by) << 32 | (low >> by | (unsigned)high << (32 - by)));
}

/* Quotient and remainder of 64 bits, bit by bit; a division by zero stops the run. */
static wide divide(wide value, wide by, wide *rest) {
    wide quotient = 0, left = 0;
    if (by == 0)
        __asm__ volatile("divu $0,$0,$0");
    for (int k = 63; k >= 0; k--) {
        unsigned out = (unsigned)(left >> 63);
        left = left << 1 | (value >> 63);
        value <<= 1;
        quotient <<= 1;
        if (out || left >= by) {
            left -= by;
            quotient |= 1;
        }
    }
    *rest = left;
    return quotient;
}

wide __udivdi3(wide value, wide by) {
    wide rest;
    return divide(value, by, &rest);
}

wide __umoddi3(wide value, wide by) {
    wide rest;
    divide(value, by, &rest);
    return rest;
}

static wide size_of(long long value) {
    return value < 0 ? 0 - (wide)value : (wide)value;
}

long long __divdi3(long long value, long long by) {
    wide rest, quotient = divide(size_of(value), size_of(by), &rest);
    return (long long)((value < 0) != (by < 0) ? 0 - quotient : quotient);
}

long long __moddi3(long long value, long long by) {
    wide rest;
    divide(size_of(value), size_of(by), &rest);
    return (long long)(value < 0 ? 0 - rest : rest);
}

/* Bits of a word. */
int __popcountsi2(unsigned value) {
    int count = 0;
    for (; value != 0; value &= value - 1)
        count++;
    return count;
}

int __clzsi2(unsigned value) {
    int count = 0;
    for (; count < 32 && !(value >> 31); value <<= 1)
        count++;
    return count;
}

int __ctzsi2(unsigned value) {
    int count = 0;
    for (; count < 32 && !(value & 1); value >>= 1)
        count++;
    return count;
}
