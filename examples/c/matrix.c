/* The product of two matrices of n by n whole numbers, in one of two orders of its loops. Along rows, the innermost
   loop takes neighbours in memory; down columns, it takes one number of each row, so that caches see another program
   with the same answer. matrix [rows|columns [N]], N from 1 to 128; rows and 32 without a word. */

#include <pisa.h>

static int a[128][128], b[128][128], c[128][128];

static void along_rows(int n) {
    for (int i = 0; i < n; i++)
        for (int k = 0; k < n; k++)
            for (int j = 0; j < n; j++)
                c[i][j] += a[i][k] * b[k][j];
}

static void down_columns(int n) {
    for (int i = 0; i < n; i++)
        for (int j = 0; j < n; j++)
            for (int k = 0; k < n; k++)
                c[i][j] += a[i][k] * b[k][j];
}

int main(int argc, char **argv) {
    int by_columns = argc > 1 && argv[1][0] == 'c';
    int n = argc > 2 ? number_of(argv[2]) : 32;
    if (n < 1 || n > 128) {
        put_text("matrix: from 1 to 128\n");
        return 2;
    }
    for (int i = 0; i < n; i++)
        for (int j = 0; j < n; j++) {
            a[i][j] = i * 7 - j * 3;
            b[i][j] = (i ^ j) - n / 2;
        }
    if (by_columns)
        down_columns(n);
    else
        along_rows(n);
    unsigned sum = 0;
    for (int i = 0; i < n; i++)
        for (int j = 0; j < n; j++)
            sum = sum * 31 + (unsigned)c[i][j];
    put_text(by_columns ? "down columns, " : "along rows, ");
    put_number(n);
    put_text(": checksum ");
    put_number((int)sum);
    put_text("\n");
    return 0;
}
