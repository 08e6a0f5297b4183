/* In how many ways can n queens stand on a board of n by n, none attacking another? By recursion over rows, with
   the attacked columns and diagonals as bits. queens [N], N from 1 to 16; 8 without a word. */

#include <pisa.h>

static int ways(unsigned all, unsigned columns, unsigned left, unsigned right) {
    if (columns == all)
        return 1;
    int count = 0;
    unsigned open = all & ~(columns | left | right);
    while (open != 0) {
        unsigned place = open & (0u - open);
        open ^= place;
        count += ways(all, columns | place, (left | place) << 1, (right | place) >> 1);
    }
    return count;
}

int main(int argc, char **argv) {
    int n = argc > 1 ? number_of(argv[1]) : 8;
    if (n < 1 || n > 16) {
        put_text("queens: from 1 to 16\n");
        return 2;
    }
    put_number(n);
    put_text(" queens: ");
    put_number(ways((1u << n) - 1, 0, 0, 0));
    put_text("\n");
    return 0;
}
