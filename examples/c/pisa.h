/* The calls of a program for PISA, as a recorded run answers them (docs/trace-format.md). Compiled for another
   machine, the same names are those of its C library, so a program does the same on both. */

#ifndef PISA_H
#define PISA_H

#ifdef __pisa__

#include <stddef.h>

#define O_RDONLY 0

/* The error of the last call that answered -1, and what it may be. */
extern int errno;
enum { ENOENT = 2, EBADF = 9, ENOMEM = 12, EACCES = 13, EFAULT = 14, EINVAL = 22, EMFILE = 24 };

void exit(int code) __attribute__((noreturn));
int read(int descriptor, void *bytes, size_t length);
int write(int descriptor, const void *bytes, size_t length);
int open(const char *path, int flags, ...);
int close(int descriptor);
int brk(void *end);
void *sbrk(int size);

#else

#include <errno.h>
#include <fcntl.h>
#include <stddef.h>
#include <stdlib.h>
#include <unistd.h>

#endif

/* Puts all bytes out; answers 0, or -1 where a call failed. */
static inline int put_bytes(const void *bytes, size_t length) {
    const char *rest = bytes;
    while (length > 0) {
        int written = (int)write(1, rest, length);
        if (written <= 0)
            return -1;
        rest += written;
        length -= (size_t)written;
    }
    return 0;
}

/* Puts out a text that ends with a zero byte. */
static inline int put_text(const char *text) {
    size_t length = 0;
    while (text[length] != 0)
        length++;
    return put_bytes(text, length);
}

/* Puts out a number in decimal. */
static inline int put_number(int number) {
    char digits[12];
    int first = sizeof digits;
    unsigned rest = number < 0 ? 0u - (unsigned)number : (unsigned)number;
    do {
        digits[--first] = (char)('0' + rest % 10);
        rest /= 10;
    } while (rest > 0);
    if (number < 0)
        digits[--first] = '-';
    return put_bytes(digits + first, sizeof digits - (size_t)first);
}

/* The number that a text begins with, in decimal, without a sign; 0 where it begins with no digit. */
static inline int number_of(const char *text) {
    unsigned number = 0;
    for (; *text >= '0' && *text <= '9'; text++)
        number = number * 10 + (unsigned)(*text - '0');
    return (int)number;
}

#endif
