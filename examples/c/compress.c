/* Packs and unpacks its input. Bytes that stood before, at most 4,095 back, become a reference to them of two bytes;
   each eight of references and single bytes have a byte before them that tells which they are.
   compress pack: puts out its input packed. compress unpack: puts out its packed input as it was.
   compress: does both, tells how long the input is both ways, and whether it came back. */

#include <pisa.h>

enum { LIMIT = 65536, LEAST = 3, MOST = 18, BACK = 4095, HEADS = 4096 };

static unsigned char input[LIMIT], packed[LIMIT + LIMIT / 8 + 1], unpacked[LIMIT];
static int heads[HEADS]; /* 1 + the place where three bytes with this hash stood last */

static int hash(const unsigned char *bytes) {
    return (int)((bytes[0] * 2654435761u ^ bytes[1] * 40503u ^ bytes[2] * 2057u) >> 7) & (HEADS - 1);
}

/* How many bytes at two places are alike, at most MOST and up to the end. */
static int alike(const unsigned char *old, const unsigned char *new, const unsigned char *end) {
    int length = 0;
    while (length < MOST && new + length < end && old[length] == new[length])
        length++;
    return length;
}

/* Packs bytes, and answers how long they are packed. */
static int pack(const unsigned char *bytes, int length, unsigned char *out) {
    int at = 0, put = 0, tell = 0;
    for (int n = 0; at < length; n++) {
        if (n % 8 == 0) {
            tell = put++;
            out[tell] = 0;
        }
        int same = 0, back = 0;
        if (at + LEAST <= length) {
            int *head = &heads[hash(bytes + at)];
            back = at + 1 - *head;
            if (*head != 0 && back <= BACK)
                same = alike(bytes + *head - 1, bytes + at, bytes + length);
            *head = at + 1;
        }
        if (same >= LEAST) {
            out[tell] |= (unsigned char)(1 << n % 8);
            out[put++] = (unsigned char)back;
            out[put++] = (unsigned char)(back >> 8 << 4 | (same - LEAST));
            at += same;
        } else {
            out[put++] = bytes[at++];
        }
    }
    return put;
}

/* Unpacks bytes, and answers how many come of them, or -1 where they were never packed so. */
static int unpack(const unsigned char *bytes, int length, unsigned char *out) {
    int at = 0, put = 0, tell = 0;
    for (int n = 0; at < length; n++) {
        if (n % 8 == 0) {
            tell = bytes[at++];
            if (at == length)
                return -1;
        }
        if (!(tell >> n % 8 & 1)) {
            if (put == LIMIT)
                return -1;
            out[put++] = bytes[at++];
            continue;
        }
        if (at + 2 > length)
            return -1;
        int back = bytes[at] | bytes[at + 1] >> 4 << 8;
        int same = (bytes[at + 1] & 15) + LEAST;
        at += 2;
        if (back == 0 || back > put || put + same > LIMIT)
            return -1;
        for (int k = 0; k < same; k++, put++)
            out[put] = out[put - back];
    }
    return put;
}

/* Reads the whole input, or as much of it as there is room for. */
static int read_all(unsigned char *bytes, int room) {
    int length = 0;
    while (length < room) {
        int more = (int)read(0, bytes + length, (size_t)(room - length));
        if (more <= 0)
            break;
        length += more;
    }
    return length;
}

static int tell_both(void) {
    int length = read_all(input, LIMIT);
    int short_length = pack(input, length, packed);
    int long_length = unpack(packed, short_length, unpacked);
    int same = length == long_length;
    for (int k = 0; same && k < length; k++)
        same = input[k] == unpacked[k];
    put_number(length);
    put_text(" bytes, packed ");
    put_number(short_length);
    put_text(same ? ", came back\n" : ", LOST\n");
    return same ? 0 : 1;
}

int main(int argc, char **argv) {
    if (argc == 1)
        return tell_both();
    int length, put;
    if (argv[1][0] == 'p') {
        length = read_all(input, LIMIT);
        put = pack(input, length, packed);
        return put_bytes(packed, (size_t)put) == 0 ? 0 : 1;
    }
    length = read_all(packed, sizeof packed);
    put = unpack(packed, length, unpacked);
    if (put < 0) {
        put_text("compress: this was never packed\n");
        return 2;
    }
    return put_bytes(unpacked, (size_t)put) == 0 ? 0 : 1;
}
