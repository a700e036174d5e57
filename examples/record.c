/* record.c: writes a record file from figures as text, one a line, as a survey office types them; record --help tells how. All or
 * nothing: the file goes to standard output when every figure is in it. */
#include <stdarg.h>
#include <stdio.h>
#include <stdlib.h>
#include <string.h>

#include "pistonwool.h"

static const char usage[] = "usage: record <FIGURES >FILE      (FIGURES has a figure a line, FILE becomes a record file)\n";
static const char help[] =
    "A line is one of these, with whole numbers:\n"
    "    line INK X0 Y0 X1 Y1\n"
    "    circle INK X Y R\n"
    "    ellipse INK X Y A B\n"
    "    curve INK X0 Y0 X1 Y1 X2 Y2 S\n"
    "    cubic INK X0 Y0 X1 Y1 X2 Y2 X3 Y3 S\n"
    "INK goes from 0 to 255, X and Y from -16384 to 16383, R, A and B from 0 to 16383, S from 0 to 6.\n"
    "What follows a # is a comment; empty lines are left out. A file has at most 1048576 bytes.\n"
    "Status: 0 written; 1 nothing is written, and standard error says which line is wrong, and why; 2 wrong use.\n";

enum { MOST = 1 << 20, LONGEST = 256, NUMBERS = 10 };
enum kind { LINE, CIRCLE, ELLIPSE, CURVE, CUBIC, KINDS };

/* each kind's word, how many numbers it takes, and their names in the record's order */
static const struct {
    const char *word;
    size_t count;
    const char *names;
} figures[] = {[LINE] = {"line", 5, "INK X0 Y0 X1 Y1"},
    [CIRCLE] = {"circle", 4, "INK X Y R"},
    [ELLIPSE] = {"ellipse", 5, "INK X Y A B"},
    [CURVE] = {"curve", 8, "INK X0 Y0 X1 Y1 X2 Y2 S"},
    [CUBIC] = {"cubic", 10, "INK X0 Y0 X1 Y1 X2 Y2 X3 Y3 S"}};

static uint8_t buffer[MOST];
static uint64_t filled;
static unsigned long at; /* the line that is read, counted from 1 */

/* Says in one line what is wrong with the line that is read, and ends. */
_Noreturn static void wrong(const char *format, ...) {
    va_list words;
    va_start(words, format);
    fprintf(stderr, "record: line %lu: ", at);
    vfprintf(stderr, format, words);
    fputc('\n', stderr);
    va_end(words);
    exit(1);
}

/* Says what is wrong with no line in particular, and ends. */
_Noreturn static void stop(const char *words) {
    fprintf(stderr, "record: %s\n", words);
    exit(1);
}

/* what a refusal is given for, in the header's words; of PW_FULL those that speak of a record */
static const char *meaning(uint32_t number) {
    switch (number) {
    case PW_COORDINATE: return "a coordinate outside -16,384 to 16,383";
    case PW_RADIUS: return "a radius or semi-axis outside 0 to 16,383, or a semi-axis of 0 beside one that is not";
    case PW_PIECES: return "an s above 6";
    case PW_FULL: return "a buffer with fewer free bytes than the record takes";
    }
    return "a number that is not explained here";
}

/* Reads a line without its comment, and answers whether there was one. */
static int read_line(char *line) {
    size_t length = 0;
    int c = getchar(), there = c != EOF, comment = 0;
    at++;
    for (; c != EOF && c != '\n'; c = getchar()) {
        comment |= c == '#';
        if (comment)
            continue;
        /* a record file in the place of figures is told so, and not printed */
        if ((c < ' ' && c != '\t' && c != '\r') || c == 127)
            wrong("a byte of %d, which is no text", c);
        if (length == LONGEST - 1)
            wrong("more than %d characters", LONGEST - 1);
        line[length++] = (char)c;
    }
    if (ferror(stdin))
        stop("input cannot be read");
    line[length] = '\0';
    return there;
}

static enum kind kind_of(const char *word) {
    for (enum kind kind = LINE; kind < KINDS; kind++)
        if (strcmp(word, figures[kind].word) == 0)
            return kind;
    wrong("there is no figure '%s'; there are line, circle, ellipse, curve and cubic", word);
}

/* The number of this name, if its C type can hold it; whether it is within the figure's limits the library says. */
static int64_t number(const char *name, int length, const char *word) {
    int signs = *name == 'X' || *name == 'Y';
    int64_t least = signs ? INT32_MIN : 0, most = signs ? INT32_MAX : *name == 'I' ? UINT8_MAX : UINT32_MAX;
    const char *limits = signs ? "-16384 to 16383" : *name == 'I' ? "0 to 255" : *name == 'S' ? "0 to 6" : "0 to 16383";
    char *end;
    long long n = strtoll(word, &end, 10); /* of a number that 64 bits cannot hold, the nearest, which does not fit either */
    if (*end != '\0')
        wrong("%.*s is '%s', which is no whole number", length, name, word);
    if (n < least || n > most)
        wrong("%.*s is %s, and goes from %s", length, name, word, limits);
    return n;
}

/* Appends a figure by its numbers, each of which fits. */
static uint32_t append(enum kind kind, const int64_t *n) {
    uint8_t ink = (uint8_t)n[0];
    switch (kind) {
    case LINE: return pw_write_line(buffer, MOST, &filled, ink, n[1], n[2], n[3], n[4]);
    case CIRCLE: return pw_write_circle(buffer, MOST, &filled, ink, n[1], n[2], n[3]);
    case ELLIPSE: return pw_write_ellipse(buffer, MOST, &filled, ink, n[1], n[2], n[3], n[4]);
    case CURVE: return pw_write_curve(buffer, MOST, &filled, ink, n[1], n[2], n[3], n[4], n[5], n[6], n[7]);
    case CUBIC: return pw_write_cubic(buffer, MOST, &filled, ink, n[1], n[2], n[3], n[4], n[5], n[6], n[7], n[8], n[9]);
    case KINDS: break;
    }
    return PW_KIND;
}

/* Appends the figure of a line, if it has one. */
static void take(char *line) {
    static const char blanks[] = " \t\r";
    char *first = strtok(line, blanks), *words[LONGEST];
    if (!first)
        return;
    enum kind kind = kind_of(first);
    size_t given = 0, due = figures[kind].count;
    const char *names = figures[kind].names;
    for (char *word = strtok(NULL, blanks); word; word = strtok(NULL, blanks))
        words[given++] = word;
    if (given != due)
        wrong("%s takes %zu numbers, %s, and here are %zu", first, due, names, given);

    int64_t numbers[NUMBERS];
    for (size_t i = 0; i < due; i++) {
        size_t length = strcspn(names, " ");
        numbers[i] = number(names, (int)length, words[i]);
        names += length + 1;
    }
    uint32_t reply = append(kind, numbers);
    if (reply != PW_DONE)
        wrong("refused %u: %s", reply, meaning(reply));
}

int main(int argc, char **argv) {
    char line[LONGEST];
    if (argc == 2 && (strcmp(argv[1], "-h") == 0 || strcmp(argv[1], "--help") == 0)) {
        printf("%s%s", usage, help);
        return 0;
    }
    if (argc != 1) {
        fputs(usage, stderr);
        return 2;
    }
    while (read_line(line))
        take(line);
    if (fwrite(buffer, 1, filled, stdout) != filled || fflush(stdout) != 0)
        stop("output cannot be written");
    return 0;
}
