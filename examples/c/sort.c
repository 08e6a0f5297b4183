/* Sorts n made-up numbers by quicksort, and tells whether they are in order and are the same numbers as before.
   sort [N], N from 1 to 65536; 1000 without a word. */

#include <pisa.h>

static unsigned numbers[65536];

/* The numbers from one position to another are put in order; short stretches by insertion. */
static void sort(unsigned *first, unsigned *last) {
    while (last - first > 8) {
        unsigned middle = first[(last - first) / 2];
        unsigned *low = first, *high = last;
        while (low <= high) {
            while (*low < middle)
                low++;
            while (*high > middle)
                high--;
            if (low <= high) {
                unsigned held = *low;
                *low++ = *high;
                *high-- = held;
            }
        }
        sort(first, high);
        first = low;
    }
    for (unsigned *next = first + 1; next <= last; next++) {
        unsigned held = *next;
        unsigned *place = next;
        for (; place > first && place[-1] > held; place--)
            *place = place[-1];
        *place = held;
    }
}

int main(int argc, char **argv) {
    int n = argc > 1 ? number_of(argv[1]) : 1000;
    if (n < 1 || n > 65536) {
        put_text("sort: from 1 to 65536\n");
        return 2;
    }
    unsigned number = 1, sum = 0;
    for (int k = 0; k < n; k++) {
        number = number * 1664525 + 1013904223;
        numbers[k] = number ^ number >> 15;
        sum += numbers[k];
    }
    sort(numbers, numbers + n - 1);
    int ordered = 1;
    unsigned weighted = 0;
    for (int k = 0; k < n; k++) {
        sum -= numbers[k];
        weighted += numbers[k] * (unsigned)(k + 1);
        ordered &= k == 0 || numbers[k - 1] <= numbers[k];
    }
    put_number(n);
    put_text(ordered && sum == 0 ? " numbers in order, checksum " : " numbers are WRONG, checksum ");
    put_number((int)weighted);
    put_text("\n");
    return ordered && sum == 0 ? 0 : 1;
}
