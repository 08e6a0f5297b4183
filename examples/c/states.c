/* A state machine that takes a text apart, byte by byte, and counts its words, numbers, strings, comments and signs.
   What it does next hangs on the text, which is what makes its branches hard to predict.
   states [N]: takes its input, or with a word N made-up bytes. */

#include <pisa.h>

enum state { BETWEEN, WORD, NUMBER, STRING, ESCAPE, SLASH, LINE_COMMENT, COMMENT, STAR };

static int words, numbers, strings, comments, signs, lines;

static int is_letter(int byte) {
    return (byte >= 'a' && byte <= 'z') || (byte >= 'A' && byte <= 'Z') || byte == '_';
}

static int is_digit(int byte) {
    return byte >= '0' && byte <= '9';
}

/* The state after a byte that begins something new. */
static enum state begin(int byte) {
    if (is_letter(byte)) {
        words++;
        return WORD;
    }
    if (is_digit(byte)) {
        numbers++;
        return NUMBER;
    }
    switch (byte) {
    case '"':
        strings++;
        return STRING;
    case '/':
        return SLASH;
    case ' ':
    case '\t':
    case '\n':
        return BETWEEN;
    default:
        signs++;
        return BETWEEN;
    }
}

/* The state after a byte. */
static enum state next(enum state state, int byte) {
    switch (state) {
    case WORD:
        return is_letter(byte) || is_digit(byte) ? WORD : begin(byte);
    case NUMBER:
        return is_letter(byte) || is_digit(byte) || byte == '.' ? NUMBER : begin(byte);
    case STRING:
        return byte == '"' ? BETWEEN : byte == '\\' ? ESCAPE : STRING;
    case ESCAPE:
        return STRING;
    case SLASH:
        if (byte == '/' || byte == '*') {
            comments++;
            return byte == '/' ? LINE_COMMENT : COMMENT;
        }
        signs++;
        return begin(byte);
    case LINE_COMMENT:
        return byte == '\n' ? BETWEEN : LINE_COMMENT;
    case COMMENT:
        return byte == '*' ? STAR : COMMENT;
    case STAR:
        return byte == '/' ? BETWEEN : byte == '*' ? STAR : COMMENT;
    default:
        return begin(byte);
    }
}

static unsigned char bytes[4096];

/* Fills the bytes with some that are made up, and answers how many of those left it took. */
static int make_up(int left) {
    static const char alphabet[] = "etaoin shrdlu 0123456789 _+-(){};\n\"/*\\";
    static unsigned number = 1;
    int length = left < (int)sizeof bytes ? left : (int)sizeof bytes;
    for (int k = 0; k < length; k++) {
        number = number * 1103515245 + 12345;
        bytes[k] = (unsigned char)alphabet[(number >> 16) % (sizeof alphabet - 1)];
    }
    return length;
}

static void tell(const char *name, int count) {
    put_text(name);
    put_text(" ");
    put_number(count);
    put_text("\n");
}

int main(int argc, char **argv) {
    int left = argc > 1 ? number_of(argv[1]) : 0;
    enum state state = BETWEEN;
    for (;;) {
        int length = argc > 1 ? make_up(left) : (int)read(0, bytes, sizeof bytes);
        if (length <= 0)
            break;
        left -= length;
        for (int k = 0; k < length; k++) {
            lines += bytes[k] == '\n';
            state = next(state, bytes[k]);
        }
    }
    tell("words", words);
    tell("numbers", numbers);
    tell("strings", strings);
    tell("comments", comments);
    tell("signs", signs);
    tell("lines", lines);
    return 0;
}
