/* What stands below each C program for PISA: the start, the system calls, and the functions that a compiler may
   call on its own. tools/cc links it, and leaves out what a program doesn't use. */

#include "pisa.h"

/* The start block has argc and behind it the pointers to the arguments; main finds sixteen bytes above its stack. */
__asm__(".section .text.start\n"
        ".globl _start\n"
        "_start:\n"
        "    lw $4,0($29)\n"
        "    addiu $5,$29,4\n"
        "    addiu $29,$29,-24\n"
        "    jal main\n"
        "    move $4,$2\n"
        "    jal exit\n"
        ".previous\n");

int errno;

/* A system call: its number and answer are in register 2, and register 7 tells whether it was refused. */
static int call(int number, int first, int second, int third) {
    register int r2 __asm__("$2") = number;
    register int r4 __asm__("$4") = first;
    register int r5 __asm__("$5") = second;
    register int r6 __asm__("$6") = third;
    register int r7 __asm__("$7");
    __asm__ volatile("syscall" : "+r"(r2), "=r"(r7) : "r"(r4), "r"(r5), "r"(r6) : "memory");
    if (r7 == 0)
        return r2;
    errno = r2;
    return -1;
}

void exit(int code) {
    for (;;)
        call(1, code, 0, 0);
}

int read(int descriptor, void *bytes, size_t length) {
    return call(3, descriptor, (int)bytes, (int)length);
}

int write(int descriptor, const void *bytes, size_t length) {
    return call(4, descriptor, (int)bytes, (int)length);
}

int open(const char *path, int flags, ...) {
    return call(5, (int)path, flags, 0);
}

int close(int descriptor) {
    return call(6, descriptor, 0, 0);
}

/* The end of the program's memory, where the break stands at the start. */
extern char _end[];
static char *end_of_memory = _end;

int brk(void *end) {
    if (call(17, (int)end, 0, 0) == -1)
        return -1;
    end_of_memory = end;
    return 0;
}

void *sbrk(int size) {
    char *before = end_of_memory;
    return size == 0 || brk(before + size) == 0 ? before : (void *)-1;
}
