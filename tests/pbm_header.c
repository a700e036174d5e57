/* pbm_header.c: headers of pictures that are read, letter by letter: blanks, comments and numbers; document 02, K2. */
#include <stdio.h>
#include <string.h>

#include "examples.h"
#include "pbm.h"
#include "pistonwool.h"

static const struct shape three_by_two = {3, 2, 4};

/* rows without a byte that a header or the end of a comment could have: 101 and 010, and the pad bits are 1 */
static const uint8_t rows[] = {0xbf, 0x5f, 0xbf, 0x5f, 0xbf, 0x5f, 0xbf, 0x5f};

/* a header and the rows after it */
static void header(const char *example, struct shape s, const char *text, size_t n, uint32_t reply) {
    uint8_t picture[LENT];
    memcpy(picture, text, n);
    memcpy(picture + n, rows, sizeof rows);
    reads(example, s, picture, n + sizeof rows, reply, n);
    if (reply == PW_DONE)
        cut_off(s, picture, n, n + rows_size(s));
}

/* texts are given with their lengths, as a byte of 0 may be in them */
#define TEXT(text) text, sizeof text - 1

/* of a sheet of 3 by 2 */
static const struct {
    const char *example, *text;
    size_t n;
    uint32_t reply;
} headers[] = {
    {"the header that is written", TEXT("P4\n3 2\n"), PW_DONE},
    {"many blanks", TEXT("P4 \t\n\v\f\r3\r\n\r\n2 "), PW_DONE},
    {"leading zeros", TEXT("P4\n03 00000000000000000000000000000002\n"), PW_DONE},

    {"a comment before the magic number", TEXT("#c\nP4\n3 2\n"), PW_DONE},
    {"one that ends with CR", TEXT("#c\rP4\n3 2\n"), PW_DONE},
    {"one inside it", TEXT("P#c\n4\n3 2\n"), PW_DONE},
    {"one after it and a blank after that", TEXT("P4#c\n\n3 2\n"), PW_DONE},
    {"one after it is no blank", TEXT("P4#c\n3 2\n"), PW_HEADER},
    {"nor is one with blanks in it", TEXT("P4# c \n3 2\n"), PW_HEADER},
    {"nor are two", TEXT("P4#c\n#d\n3 2\n"), PW_HEADER},
    {"a CR and LF after one: the LF is a blank", TEXT("P4#c\r\n3 2\n"), PW_DONE},
    {"one before the width", TEXT("P4\n#c\n3 2\n"), PW_DONE},
    {"two", TEXT("P4\n#c\n#d\n3 2\n"), PW_DONE},
    {"one within another", TEXT("P4\n#c#d\n3 2\n"), PW_DONE},
    {"an empty one", TEXT("P4\n#\n3 2\n"), PW_DONE},
    {"one with a header in it", TEXT("P4\n# P4 4 4 \n3 2\n"), PW_DONE},
    {"one with any byte in it", TEXT("P4\n#\0\x01\x7f\x80\xff\v\f\t \n3 2\n"), PW_DONE},
    {"one after the width is no blank", TEXT("P4\n3#c\n2\n"), PW_HEADER},
    {"with one after it", TEXT("P4\n3#c\n 2\n"), PW_DONE},
    {"one between blanks", TEXT("P4\n3 #c\n 2\n"), PW_DONE},
    {"one before the height", TEXT("P4\n3 #c\n2\n"), PW_DONE},
    {"one after the height, and a blank after that", TEXT("P4\n3 2#c\n\n"), PW_DONE},
    {"one after the height that ends with CR", TEXT("P4\n3 2#c\r "), PW_DONE},
    {"two after the height", TEXT("P4\n3 2#c\n#d\r\t"), PW_DONE},
    {"one after the height and no blank", TEXT("P4\n3 2#c\n"), PW_HEADER},
    {"one after a leading zero", TEXT("P4\n0#c\n3 0#c\n2\n"), PW_DONE},
    {"a comment that does not end, before all", TEXT("#P4 3 2 "), PW_HEADER},
    {"one after the magic number", TEXT("P4 #3 2 "), PW_HEADER},
    {"one after the width", TEXT("P4\n3 #2 "), PW_HEADER},
    {"one after the height", TEXT("P4\n3 2#c "), PW_HEADER},

    {"no magic number", TEXT("3 2\n"), PW_HEADER},
    {"that of plain PBM", TEXT("P1\n3 2\n"), PW_HEADER},
    {"that of raw PGM", TEXT("P5\n3 2\n255\n"), PW_HEADER},
    {"a small letter", TEXT("p4\n3 2\n"), PW_HEADER},
    {"a blank before it", TEXT(" P4\n3 2\n"), PW_HEADER},
    {"a newline before it", TEXT("\nP4\n3 2\n"), PW_HEADER},
    {"a blank inside it", TEXT("P 4\n3 2\n"), PW_HEADER},
    {"a comment and a blank inside it", TEXT("P#c\n 4\n3 2\n"), PW_HEADER},
    {"a zero inside it", TEXT("P04\n3 2\n"), PW_HEADER},
    {"a digit after it", TEXT("P44\n3 2\n"), PW_HEADER},
    {"no blank after it", TEXT("P43 2\n"), PW_HEADER},
    {"a mark of the order of bytes before it", TEXT("\xef\xbb\xbfP4\n3 2\n"), PW_HEADER},

    {"no width", TEXT("P4\n 2\n"), PW_HEADER},
    {"no height", TEXT("P4\n3 \n"), PW_HEADER},
    {"a sign", TEXT("P4\n+3 2\n"), PW_HEADER},
    {"another sign", TEXT("P4\n3 -2\n"), PW_HEADER},
    {"a point", TEXT("P4\n3.0 2\n"), PW_HEADER},
    {"a comma", TEXT("P4\n3,2\n"), PW_HEADER},
    {"a letter after the width", TEXT("P4\n3x 2\n"), PW_HEADER},
    {"a letter after the height", TEXT("P4\n3 2x"), PW_HEADER},
    {"a letter before the last blank", TEXT("P4\n3 2x\n"), PW_HEADER},
    {"a byte of 0 for a blank", TEXT("P4\0003 2\n"), PW_HEADER},
    {"hexadecimal", TEXT("P4\n0x3 2\n"), PW_HEADER},

    {"the sizes exchanged", TEXT("P4\n2 3\n"), PW_HEADER},
    {"a column more", TEXT("P4\n4 2\n"), PW_HEADER},
    {"a column less", TEXT("P4\n2 2\n"), PW_HEADER},
    {"a row more", TEXT("P4\n3 3\n"), PW_HEADER},
    {"a row less", TEXT("P4\n3 1\n"), PW_HEADER},
    {"a width of 0", TEXT("P4\n0 2\n"), PW_HEADER},
    {"a height of 0", TEXT("P4\n3 0\n"), PW_HEADER},
    {"only zeros", TEXT("P4\n000 000\n"), PW_HEADER},
    {"a zero behind", TEXT("P4\n30 2\n"), PW_HEADER},
    {"a digit joined by a comment", TEXT("P4\n3#c\n0 2\n"), PW_HEADER},
    {"256 more", TEXT("P4\n259 2\n"), PW_HEADER},
    {"4,096 more", TEXT("P4\n4099 2\n"), PW_HEADER},
    {"8,192 more", TEXT("P4\n3 8194\n"), PW_HEADER},
    {"2^16 more", TEXT("P4\n65539 2\n"), PW_HEADER},
    {"2^31 more", TEXT("P4\n2147483651 2\n"), PW_HEADER},
    {"2^32 more", TEXT("P4\n4294967299 2\n"), PW_HEADER},
    {"2^32 more rows", TEXT("P4\n3 4294967298\n"), PW_HEADER},
    {"2^64 more", TEXT("P4\n18446744073709551619 2\n"), PW_HEADER},
    {"2^64 more rows", TEXT("P4\n3 18446744073709551618\n"), PW_HEADER},
    {"2^128 more", TEXT("P4\n340282366920938463463374607431768211459 2\n"), PW_HEADER},
    {"10^40 more", TEXT("P4\n10000000000000000000000000000000000000003 2\n"), PW_HEADER},
    {"both too large", TEXT("P4\n99999999999999999999 99999999999999999999\n"), PW_HEADER},
};

/* each byte in the place of each blank: six of them are blanks */
static void blanks(void) {
    static const size_t places[] = {2, 4, 6};
    char text[] = "P4\n3 2\n", said[64];
    for (size_t p = 0; p < sizeof places / sizeof *places; p++)
        for (int byte = 0; byte < 256; byte++) {
            int blank = byte == ' ' || byte == '\t' || byte == '\n' || byte == '\v' || byte == '\f' || byte == '\r';
            memcpy(text, "P4\n3 2\n", 7);
            text[places[p]] = (char)byte;
            snprintf(said, sizeof said, "a byte of %d in place %zu", byte, places[p]);
            header(said, three_by_two, text, 7, blank ? PW_DONE : PW_HEADER);
        }
}

/* comments at every place of headers: skipped up to the last blank, and after it the first bytes of the rows */
static void comments(void) {
    static const char *const texts[] = {"P4\n12 2\n", "P4 \t012\r\n0002 "};
    static const char *const between[] = {"#\n", "#\r", "# P4 9 9\n", "##1\r", "#a\n#b\r"};
    static const struct shape shape = {12, 2, 12};
    char text[64], said[96];
    for (size_t t = 0; t < sizeof texts / sizeof *texts; t++)
        for (size_t c = 0; c < sizeof between / sizeof *between; c++)
            for (size_t place = 0; place <= strlen(texts[t]); place++) {
                size_t n = (size_t)snprintf(text, sizeof text, "%.*s%s%s", (int)place, texts[t], between[c], texts[t] + place);
                snprintf(said, sizeof said, "comment %zu in place %zu of header %zu", c, place, t);
                if (place < strlen(texts[t]))
                    header(said, shape, text, n, PW_DONE);
                else
                    reads(said, shape, strcat(text, "rows"), n + 4, PW_DONE, place);
            }
    header("1, a comment and 2 are 12", shape, TEXT("P4\n1#c\n2 2\n"), PW_DONE);
    header("and not 1", (struct shape){1, 2, 4}, TEXT("P4\n1#c\n2 2\n"), PW_HEADER);
    header("nor 2", (struct shape){2, 2, 4}, TEXT("P4\n1#c\n2 2\n"), PW_HEADER);
}

/* what follows the one blank is the first row, whatever it is */
static void after_the_blank(void) {
    static const struct {
        const char *example, *text;
        size_t n;
    } ends[] = {{"a second newline", TEXT("P4\n3 2\n\n\x5f")}, {"CR and LF", TEXT("P4\n3 2\r\n\x5f")},
        {"a blank", TEXT("P4\n3 2\n \x5f")}, {"a comment's mark", TEXT("P4\n3 2 #\x5f")},
        {"a comment", TEXT("P4\n3 2 #c\n\x5f\xbf")}, {"a number more", TEXT("P4\n3 2 1\n\xbf\x5f")}};
    for (size_t i = 0; i < sizeof ends / sizeof *ends; i++)
        reads(ends[i].example, three_by_two, ends[i].text, ends[i].n, PW_DONE, 7);
    /* the newline that ends the comment is no blank, and the second is: two bytes are left for the rows, and with one less 14 */
    reads("after a comment", three_by_two, TEXT("P4\n3 2#c\n\n\xbf\x5f"), PW_DONE, 10);
    reads("after a comment, with a byte less", three_by_two, TEXT("P4\n3 2#c\n\n\xbf"), PW_PIXELS, 0);
}

/* the bytes beside the digits are none; more digits than any number has, in zeros and in nines */
static void numbers(void) {
    char text[LENT];
    header("a byte above 9 is no digit of 10", (struct shape){10, 2, 10}, TEXT("P4\n: 2\n"), PW_HEADER);
    header("a byte below 0 makes no 9 of 10", (struct shape){9, 2, 10}, TEXT("P4\n1/ 2\n"), PW_HEADER);
    size_t n = (size_t)snprintf(text, sizeof text, "P4\n%0200d 2\n", 3);
    header("200 digits of 3", three_by_two, text, n, PW_DONE);
    memset(text + 3, '9', 199);
    header("and of a number too large", three_by_two, text, n, PW_HEADER);
    n = (size_t)snprintf(text, sizeof text, "P4\n3 %0200d\n", 2);
    header("200 digits of 2", three_by_two, text, n, PW_DONE);
    memset(text + 5, '9', 199);
    header("and of another too large", three_by_two, text, n, PW_HEADER);
}

void pbm_headers(void) {
    for (size_t i = 0; i < sizeof headers / sizeof *headers; i++)
        header(headers[i].example, three_by_two, headers[i].text, headers[i].n, headers[i].reply);
    blanks();
    comments();
    after_the_blank();
    numbers();
}
