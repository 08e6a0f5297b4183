/* What a compiler makes of C: each kind of instruction, address and call, on values that it can't know. Puts out a
   checksum for each kind, which is the same on every machine. */

#include <limits.h>
#include <pisa.h>
#include <stdarg.h>

typedef unsigned long long wide;

static volatile int values[] = {0, 1, -1, 2, 7, -8, 255, 256, -256, 32767, 32768, -32768, -32769, 65535, 65536,
                                1000000007, -1000000007, INT_MAX, INT_MIN, INT_MIN + 1};
enum { COUNT = sizeof values / sizeof *values };

static unsigned sum;

static void add(unsigned value) {
    sum = (sum << 5 | sum >> 27) ^ value * 2654435761u;
}

static void add_wide(wide value) {
    add((unsigned)value);
    add((unsigned)(value >> 32));
}

static void tell(const char *name) {
    put_text(name);
    put_text(" ");
    put_number((int)sum);
    put_text("\n");
    sum = 1;
}

static void arithmetic(int a, int b) {
    unsigned u = (unsigned)a, v = (unsigned)b;
    add(u + v), add(u - v), add(u * v), add(u & v), add(u | v), add(u ^ v), add(~(u | v));
    add(u << (v & 31)), add(u >> (v & 31)), add((unsigned)(a >> (v & 31)));
    add(u << 7), add(u >> 9), add((unsigned)(a >> 31));
    add(u + 32767), add(u - 32768), add(u & 0x8001), add(u | 0xfffe), add(u ^ 0x9999), add(u + 0x12345678);
    if (b != 0 && !(a == INT_MIN && b == -1))
        add((unsigned)(a / b)), add((unsigned)(a % b));
    if (b != 0)
        add(u / v), add(u % v);
    add((unsigned)(a / 10)), add((unsigned)(a % 1000)), add(u / 7), add(u % 641), add((unsigned)(a / 16));
}

static void comparisons(int a, int b) {
    unsigned u = (unsigned)a, v = (unsigned)b, bits = 0;
    bits = bits * 2 + (a < b), bits = bits * 2 + (a <= b), bits = bits * 2 + (a == b), bits = bits * 2 + (a != b);
    bits = bits * 2 + (u < v), bits = bits * 2 + (u <= v), bits = bits * 2 + (a < 0), bits = bits * 2 + (a <= 0);
    bits = bits * 2 + (a > 0), bits = bits * 2 + (a >= 0), bits = bits * 2 + (a < -32768);
    bits = bits * 2 + (u < 0xffff8000u), bits = bits * 2 + (u < 0x7fffu), bits = bits * 2 + (a < 32767);
    if (a < 0)
        add(1);
    if (a <= 0)
        add(2);
    if (a > 0)
        add(3);
    if (a >= 0)
        add(4);
    if (a == b)
        add(5);
    add(bits);
}

static void wide_arithmetic(long long a, long long b) {
    wide u = (wide)a, v = (wide)b;
    unsigned by = (unsigned)v & 63;
    add_wide(u + v), add_wide(u - v), add_wide(u * v), add_wide(u & v), add_wide(0 - u);
    add_wide(u << by), add_wide(u >> by), add_wide((wide)(a >> by)), add_wide(u << 33), add_wide((wide)(a >> 40));
    add_wide((wide)((long long)(int)a * (int)b)), add_wide((wide)(unsigned)u * (unsigned)v);
    add((unsigned)(a < b) * 4 + (unsigned)(u < v) * 2 + (unsigned)(a == b));
    if (v != 0)
        add_wide(u / v), add_wide(u % v);
    if (b != 0 && !(a == LLONG_MIN && b == -1))
        add_wide((wide)(a / b)), add_wide((wide)(a % b));
}

/* Bytes, halves and words, signed and not, and words at every place. */
struct mixed {
    signed char byte;
    unsigned char small;
    short half;
    unsigned short large;
    int word;
} mixed[4];

struct __attribute__((packed)) unaligned {
    char before;
    int word;
    short half;
    unsigned other;
    char between[3];
    long long both;
} unaligned[3];

static void memory(int a, int b) {
    struct mixed *to = &mixed[b & 3];
    to->byte = (signed char)a, to->small = (unsigned char)a, to->half = (short)a;
    to->large = (unsigned short)a, to->word = b;
    struct mixed copy = *to;
    mixed[((unsigned)b + 1) & 3] = copy;
    add((unsigned)copy.byte), add(copy.small), add((unsigned)copy.half), add(copy.large), add((unsigned)copy.word);
    struct unaligned *from = &unaligned[(unsigned)b % 3];
    add((unsigned)from->word), add((unsigned)from->half), add(from->other), add_wide((wide)from->both);
    from->word = a, from->half = (short)b, from->other = (unsigned)(a ^ b), from->both = (long long)a * b;
    add((unsigned)from->word), add((unsigned)from->half), add(from->other), add_wide((wide)from->both);
}

/* Functions by address, in tables and in code; cases; labels; unknown numbers of arguments. */
static int plus(int a) { return (int)((unsigned)a + 3u); }
static int twice(int a) { return (int)((unsigned)a * 2u); }
static int less(int a) { return (int)((unsigned)a - 5u); }
static int (*const table[])(int) = {plus, twice, less, plus};
static int (*volatile chosen)(int) = less;

static unsigned cases(unsigned a) {
    switch (a) {
    case 0: return 17;
    case 1: return a + 9;
    case 2: return a * 77;
    case 3: return ~a;
    case 4: return 12345678;
    case 5: return a << 9;
    case 6: return 0;
    case 9: return 0x8000;
    default: return a % 5;
    }
}

static unsigned labels(const unsigned char *program) {
    static void *const places[] = {&&more, &&less, &&again, &&over};
    unsigned value = 1;
    goto *places[*program++];
more:
    value += 7;
    goto *places[*program++];
less:
    value -= 1;
    goto *places[*program++];
again:
    value *= 3;
    goto *places[*program++];
over:
    return value;
}

static unsigned total(int count, ...) {
    va_list rest;
    unsigned result = 0;
    va_start(rest, count);
    for (int k = 0; k < count; k++)
        result = result * 3 + (k % 2 ? (unsigned)va_arg(rest, long long) : (unsigned)va_arg(rest, int));
    va_end(rest);
    return result;
}

static void calls(int a, int b) {
    static const unsigned char program[] = {0, 2, 1, 0, 2, 2, 3};
    add((unsigned)table[b & 3](a)), add((unsigned)chosen(a));
    chosen = (a & 1) ? twice : plus;
    add(cases((unsigned)a)), add(cases((unsigned)b & 15)), add(labels(program + (b & 1)));
    add(total(4, a, (long long)b, b, (long long)a));
}

/* A frame with far places, and recursion. */
static unsigned deep(int depth, unsigned value) {
    volatile unsigned frame[10000];
    frame[0] = value, frame[9999] = value * 3 + 1;
    return depth == 0 ? frame[9999] : deep(depth - 1, frame[0] ^ frame[9999]) + frame[9999];
}

static void bits(int a) {
    unsigned u = (unsigned)a | 1;
    add((unsigned)__builtin_popcount(u)), add((unsigned)__builtin_clz(u)), add((unsigned)__builtin_ctz(u));
}

/* The bytes of a file, in pieces. */
static int whole_file(const char *name) {
    unsigned char piece[100];
    int file = open(name, O_RDONLY), length;
    if (file < 0)
        return -1;
    while ((length = (int)read(file, piece, sizeof piece)) > 0)
        for (int k = 0; k < length; k++)
            add(piece[k]);
    return length == 0 && close(file) == 0 && close(file) == -1 && errno == EBADF ? 0 : -1;
}

/* operations FILE: a file that is there. */
int main(int argc, char **argv) {
    sum = 1;
    for (int i = 0; i < COUNT; i++)
        for (int j = 0; j < COUNT; j++)
            arithmetic(values[i], values[j]);
    tell("arithmetic");
    for (int i = 0; i < COUNT; i++)
        for (int j = 0; j < COUNT; j++)
            comparisons(values[i], values[j]);
    tell("comparisons");
    for (int i = 0; i < COUNT; i++)
        for (int j = i % 5; j < COUNT; j += 5)
            wide_arithmetic((long long)values[i] * values[COUNT - 1 - j], (long long)values[j] << (i & 31));
    tell("wide");
    for (int i = 0; i < COUNT; i++)
        for (int j = 0; j < COUNT; j++)
            memory(values[i], values[j]);
    tell("memory");
    for (int i = 0; i < COUNT; i++)
        for (int j = 0; j < COUNT; j++)
            calls(values[i], values[j]);
    tell("calls");
    for (int i = 0; i < COUNT; i++)
        bits(values[i]);
    tell("bits");
    add(deep(5, (unsigned)values[3]));
    tell("frames");
    char *end = sbrk(0);
    if (brk(end + 5000) != 0 || sbrk(100) != end + 5000)
        return 1;
    for (int k = 0; k < 5100; k++)
        end[k] = (char)(k * 7);
    for (int k = 0; k < 5100; k++)
        add((unsigned)end[k]);
    tell("break");
    if (read(7, end, 10) != -1 || errno != EBADF || write(5, end, 1) != -1 || errno != EBADF || close(9) != -1)
        return 2;
    if (open("no such file", O_RDONLY) != -1 || errno != ENOENT)
        return 3;
    if (argc < 2 || whole_file(argv[1]) != 0)
        return 4;
    tell("file");
    return values[4];
}
