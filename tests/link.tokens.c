/* Writes images of tokens (layout_tokens of include/layout.h), in C and in C++: the worked examples of the page of document 02's L2, with
 * guard bytes round all that is lent; two of the images are run. An image that is expected is the page's hex, or is put together here
 * from the records and the text that the page lists, by document 01's layout of an image. Argument: a name for the lines that are printed.
 */
#include "link.listing.h"

#include <stdio.h>
#include <stdlib.h>
#include <string.h>

#define GUARD 64
#define ROOM 60000
#define IMAGES 11

/* An example that is accepted. A token is `kind:start+length`, or the kind alone of an opener or a closer. The image: its length, the
 * components of each concatenation, the records of each component, the records (kind, text start, skip), the text. */
struct example {
    const char *text, *tokens;
    size_t length;
    const char *concatenations, *components, *records, *joined;
};

/* Examples 1 to 10 of the page, in their order; then its line about literals beside identifiers. */
static const struct example examples[IMAGES] = {
    {"a", "0:0+1", 65, "1", "1", "0,0,1", "a"},
    {"a , b ; c", "0:0+1 1:2+1 0:4+1 1:6+1 0:8+1", 111, "2 1", "1 1 1", "0,0,1 0,1,1 0,2,1", "bac"},
    {"", "4 7", 78, "1", "2", "2,0,2 5,1,1", "()"},
    {"x y z", "3 0:0+1 0:2+1 7 0:4+1", 106, "1", "4", "1,0,3 0,1,1 5,4,1 0,5,1", " x y z"},
    {"", "3 7", 78, "1", "2", "1,0,2 5,1,1", "  "},
    {"a b (c) d e", "0:0+1 0:2+1 4 0:5+1 7 0:8+1 0:10+1", 121, "1", "5", "0,0,1 2,3,3 0,4,1 5,5,1 0,6,1", "a b(c)d e"},
    {"f(a, b; c)", "0:0+1 4 0:2+1 1:3+1 0:5+1 1:6+1 0:8+1 7", 156, "1", "8", "0,0,1 2,1,7 0,2,1 0,3,1 0,4,1 0,5,1 0,6,1 5,7,1",
     "f(a,b;c)"},
    {"x as usize[(n as u16+1)..=7]", "0:0+1 0:2+2 0:5+5 5 4 0:12+1 0:14+2 0:17+3 1:20+1 2:21+1 7 1:23+1 1:24+1 1:25+1 2:26+1 7", 224,
     "1", "12", "0,0,1 3,10,11 2,11,5 0,12,1 0,20,1 0,21,1 5,22,1 0,23,1 0,24,1 0,25,1 0,26,1 5,27,1", "x as usize[(n as u16+1)..=7]"},
    {"10u4, 5u4; rec[..8]", "2:0+4 1:4+1 2:6+3 1:9+1 0:11+3 5 1:15+1 1:16+1 2:17+1 7", 183, "2 1", "1 1 6",
     "0,0,1 0,3,1 0,7,1 3,10,5 0,11,1 0,12,1 0,13,1 5,14,1", "5u410u4rec[..8]"},
    {"'q, \"s,;\"", "1:0+1 0:1+1 1:2+1 2:4+5", 103, "2", "1 2", "0,0,1 0,5,1 0,6,1", "\"s,;\"'q"},
    {"5u8 a b 6 c", "2:0+3 0:4+1 0:6+1 2:8+1 0:10+1", 108, "1", "4", "0,0,1 0,3,1 0,6,1 0,7,1", "5u8a b6c"},
};

/* The page's own bytes of the first two. */
static const char *const hex[2] = {
    "0100000001000000010000000100000000000000280000002c0000003400000040000000410000000100000001000000000000000000000000000000010000"
    "0061",
    "02000000030000000300000003000000000000002800000030000000480000006c0000006f00000002000000010000000100000000000000010000000000"
    "00000100000000000000000000000000000001000000000000000100000001000000000000000200000001000000626163",
};

/* Examples 11 and 12, and a start and a length that together pass 2^32. */
static const struct {
    const char *text, *tokens;
    unsigned number;
} refusals[] = {
    {"", "", 51},
    {"a,", "0:0+1 1:1+1", 51},
    {",a", "1:0+1 0:1+1", 51},
    {";a", "1:0+1 0:1+1", 51},
    {"a;", "0:0+1 1:1+1", 51},
    {"a,,b", "0:0+1 1:1+1 1:2+1 0:3+1", 51},
    {"a", "8:0+1", 50},
    {"", "7", 50},
    {"", "4", 50},
    {"a", "0:0+0", 50},
    {"ab", "0:1+2", 50},
    {"ab", "1:0+2", 50},
    {"a,", "1:1+1 8:0+1", 50}, /* an empty component too */
    {"abc", "0:4294967295+2", 50},
};

/* Bytes that are lent, with guard bytes before and after them. */
struct lent {
    uint8_t bytes[GUARD + ROOM + GUARD];
    size_t length;
};

static struct lent list, text, area;
static const char *name;
static int failures;

static void expect(int right, const char *what, unsigned number) {
    printf("%s: %s %u: %s\n", name, what, number, right ? "passed" : "FAILED");
    failures += !right;
}

static uint8_t *of(struct lent *lent) { return lent->bytes + GUARD; }

static void empty(struct lent *lent) {
    memset(lent->bytes, 0xa5, sizeof lent->bytes);
    lent->length = 0;
}

static void lend_text(const char *s) {
    empty(&text);
    text.length = strlen(s);
    memcpy(of(&text), s, text.length);
}

/* The kind may be one that there is not. */
static void add_token(unsigned kind, uint32_t start, uint32_t length) {
    uint8_t *const at = of(&list) + list.length;
    list.length += (size_t)(layout_put_token(at, LAYOUT_TOKEN_IDENTIFIER, start, length) - at);
    at[0] = (uint8_t)kind;
}

/* A number, and the place after it. */
static uint32_t number_at(const char **s) {
    char *end;
    const unsigned long number = strtoul(*s, &end, 10);
    *s = end;
    return (uint32_t)number;
}

/* Start and length of a group's token are not looked at: they are garbage here. */
static void lend_list(const char *tokens) {
    empty(&list);
    while (*tokens) {
        const uint32_t kind = number_at(&tokens);
        uint32_t start = 0xffffffffu, length = 0x80000001u;
        if (*tokens == ':') {
            tokens++;
            start = number_at(&tokens);
            tokens++;
            length = number_at(&tokens);
        }
        add_token(kind, start, length);
        tokens += *tokens == ' ';
    }
}

/* Hands both over with an area of this length. Whether what is read, the guards, and the area beyond an image are as lent after it. */
static int call(size_t area_length, uint64_t *outcome) {
    static struct lent list_before, text_before;
    size_t i;
    int as_lent = 1;
    list_before = list;
    text_before = text;
    empty(&area);
    *outcome = layout_tokens(of(&list), list.length, of(&text), text.length, of(&area), area_length);
    area.length = layout_accepted(*outcome) ? layout_length(*outcome) : 0;
    for (i = 0; i < sizeof area.bytes; i++)
        if ((i < GUARD || i >= GUARD + area.length) && area.bytes[i] != 0xa5)
            as_lent = 0;
    return as_lent && !memcmp(list.bytes, list_before.bytes, sizeof list.bytes)
           && !memcmp(text.bytes, text_before.bytes, sizeof text.bytes);
}

/* Whether it is refused with this number and no places, and all is as lent. */
static int refused(size_t area_length, unsigned number) {
    uint64_t outcome;
    const int as_lent = call(area_length, &outcome);
    return as_lent && outcome == (uint64_t)number << 32 && layout_number(outcome) == number && layout_concatenation(outcome) == 0
           && layout_component(outcome) == 0;
}

static void put(struct lent *image, uint32_t number) {
    int i;
    for (i = 0; i < 4; i++)
        of(image)[image->length++] = (uint8_t)(number >> 8 * i);
}

/* The numbers of a table, parted by spaces or commas: how many there are. Each is put, with `zeros` numbers 0 after it. */
static uint32_t put_table(struct lent *image, const char *numbers, int zeros) {
    uint32_t count = 0;
    while (*numbers) {
        int i;
        put(image, number_at(&numbers));
        for (i = 0; i < zeros; i++)
            put(image, 0);
        numbers += *numbers != 0;
        count++;
    }
    return count;
}

static void expected(struct lent *image, const struct example *example) {
    static struct lent tables;
    uint32_t counts[5], offset = 40;
    int i;
    empty(&tables);
    counts[0] = put_table(&tables, example->concatenations, 0);
    counts[1] = put_table(&tables, example->components, 1); /* the literal width */
    counts[2] = put_table(&tables, example->records, 0) / 3;
    counts[3] = (uint32_t)strlen(example->joined);
    counts[4] = 0;
    empty(image);
    for (i = 0; i < 5; i++)
        put(image, counts[i]);
    for (i = 0; i < 5; i++) {
        static const uint32_t sizes[5] = {4, 8, 12, 1, 1};
        put(image, offset);
        offset += counts[i] * sizes[i];
    }
    memcpy(of(image) + image->length, of(&tables), tables.length);
    memcpy(of(image) + image->length + tables.length, example->joined, counts[3]);
    image->length += tables.length + counts[3];
}

static int is_hex(const struct lent *image, const char *digits) {
    size_t i;
    char two[3];
    for (i = 0; i < image->length; i++) {
        snprintf(two, sizeof two, "%02x", image->bytes[GUARD + i]);
        if (strncmp(digits + 2 * i, two, 2) != 0)
            return 0;
    }
    return strlen(digits) == 2 * image->length;
}

/* Whether an area of this length holds the image then. */
static int written(size_t area_length, const struct lent *image) {
    uint64_t outcome;
    return call(area_length, &outcome) && outcome == image->length && !memcmp(area.bytes, image->bytes, sizeof area.bytes)
           && layout_check(of(&area), area.length) == 0;
}

static void try_image(const struct example *example, const char *digits) {
    static struct lent image;
    const unsigned length = (unsigned)example->length;
    printf("%s: text `%s`, tokens `%s`\n", name, example->text, example->tokens);
    lend_text(example->text);
    lend_list(example->tokens);
    expected(&image, example);
    expect(image.length == length && (!digits || is_hex(&image, digits)), "the image as the page has it, its length", length);
    expect(written(length, &image) && written(length + 35, &image) && written(LAYOUT_ANY_IMAGE, &image), "written, areas from", length);
    expect(refused(length - 1, 53) && refused(0, 53), "shorter areas: refused with", 53);
}

/* The image that the area now has, run in mode 0. */
static int runs_to(const char *listing) {
    static uint8_t answer[LAYOUT_ANY_AREA];
    const uint64_t outcome = layout_run(of(&area), area.length, 0, answer, sizeof answer);
    const struct layout_bytes got = listing_of(outcome, answer, of(&area));
    return got.length == strlen(listing) && !memcmp(got.bytes, listing, got.length);
}

static void try_run(unsigned number, const char *listing) {
    uint64_t outcome;
    lend_text(examples[number - 1].text);
    lend_list(examples[number - 1].tokens);
    expect(call(LAYOUT_ANY_IMAGE, &outcome) && runs_to(listing), "the run of example", number);
}

static void try_refusals(void) {
    char what[128];
    size_t i;
    for (i = 0; i < sizeof refusals / sizeof *refusals; i++) {
        lend_text(refusals[i].text);
        lend_list(refusals[i].tokens);
        snprintf(what, sizeof what, "text `%s`, tokens `%s`: refused with", refusals[i].text, refusals[i].tokens);
        expect(refused(LAYOUT_ANY_IMAGE, refusals[i].number), what, refusals[i].number);
    }
    lend_text("a");
    lend_list("0:0+1");
    list.length = 1;
    expect(refused(LAYOUT_ANY_IMAGE, 50), "a list of one byte: refused with", 50);
}

/* Example 13: areas of 64, 65 and 100 bytes for example 1. */
static void try_areas(void) {
    static struct lent image;
    lend_text("a");
    lend_list("0:0+1");
    expected(&image, &examples[0]);
    expect(refused(64, 53), "an area of 64: refused with", 53);
    expect(written(65, &image), "an area of", 65);
    expect(written(100, &image) && area.bytes[GUARD + 64] == 'a' && area.bytes[GUARD + 65] == 0xa5, "an area of", 100);
    expect(layout_tokens(NULL, 0, NULL, 0, NULL, 0) == (uint64_t)51 << 32, "nothing lent at all: refused with", 51);
}

/* So many groups of all kinds around `a`, so many closers. */
static void lend_nested(unsigned openers, unsigned closers) {
    unsigned i;
    lend_text("a");
    empty(&list);
    for (i = 0; i < openers; i++)
        add_token(LAYOUT_TOKEN_SPACE + i % 4, 0, 0);
    add_token(LAYOUT_TOKEN_IDENTIFIER, 0, 1);
    for (i = 0; i < closers; i++)
        add_token(LAYOUT_TOKEN_CLOSER, 0, 0);
}

/* `a;a;..;a`, with so many `a`. */
static void lend_concatenations(unsigned count) {
    unsigned i;
    lend_text("a;");
    empty(&list);
    for (i = 0; i < count; i++) {
        if (i)
            add_token(LAYOUT_TOKEN_PUNCTUATION, 1, 1);
        add_token(LAYOUT_TOKEN_IDENTIFIER, 0, 1);
    }
}

/* Example 14, and what is just within the limits. */
static void try_limits(void) {
    uint64_t outcome;
    lend_nested(33, 33);
    expect(refused(LAYOUT_ANY_IMAGE, 52), "33 nested groups: refused with", 52);
    lend_nested(33, 32);
    expect(refused(LAYOUT_ANY_IMAGE, 50), "33 openers, 32 closers: refused with", 50);
    lend_nested(32, 32);
    expect(call(LAYOUT_ANY_IMAGE, &outcome) && outcome == 40 + 4 + 8 + (12 + 1) * 65, "nested groups:", 32);
    lend_concatenations(18);
    expect(refused(LAYOUT_ANY_IMAGE, 52), "18 concatenations: refused with", 52);
    add_token(LAYOUT_TOKEN_PUNCTUATION, 1, 1);
    expect(refused(LAYOUT_ANY_IMAGE, 51), "the same and a last `;`: refused with", 51);
    lend_concatenations(16);
    expect(call(LAYOUT_ANY_IMAGE, &outcome) && outcome == 40 + (4 + 8 + 12 + 1) * 16, "concatenations:", 16);
}

int main(int argc, char **argv) {
    static const uint8_t token[LAYOUT_TOKEN_SIZE] = {7, 0, 0, 0, 4, 3, 2, 1, 0xff, 0xfe, 0, 0};
    uint8_t bytes[LAYOUT_TOKEN_SIZE];
    int i;
    if (argc != 2)
        return 2;
    name = argv[1];
    expect(layout_put_token(bytes, LAYOUT_TOKEN_CLOSER, 0x01020304, 0xfeff) == bytes + sizeof bytes && !memcmp(bytes, token, sizeof token),
           "the bytes of a token:", LAYOUT_TOKEN_SIZE);
    expect(LAYOUT_ANY_IMAGE == 40 + 4 * 16 + 8 * 256 + 12 * 2048 + 16384 + 8192, "the greatest image:", LAYOUT_ANY_IMAGE);
    for (i = 0; i < IMAGES; i++)
        try_image(&examples[i], i < 2 ? hex[i] : NULL);
    try_run(2, "layout 2 3 - none D Z -\nc 0 2 - none D Z\nvariable +0 - b\nvariable +0 - a\nc 1 1 - none D Z\nvariable +0 - c\n");
    try_run(9, "refused 17 0 0\n");
    try_refusals();
    try_areas();
    try_limits();
    printf("%s: %d failed\n", name, failures);
    return failures != 0;
}
