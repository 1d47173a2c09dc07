/* Runs lines under a default (layout_run_with and layout_in_force of include/layout.h), in C and in C++: the rows of the table of
 * document 02's L1, with guard bytes round all that is lent; then inputs under an empty default, which means none. A row's outcome is the
 * Rust's: of the line itself, or, where that is refused with 40, of the line with a prefix, which the listing then does not show.
 * Arguments: a name for the lines that are printed, the folder with the rows' inputs (tests/link.d), two inputs that are accepted. */
#include "link.listing.h"

#include <stdio.h>
#include <stdlib.h>
#include <string.h>

#define GUARD 64
#define LONG_DEFAULT 70000

/* Lines 2 and on of two listings. */
#define SOURCE "c 0 2 8 none D Z\nvariable +0 +4 a\nfiller +0 +4\nc 1 1 8 none D Z\nvariable +0 +8 b\n"
#define FIELD "c 0 1 8 none D Z\nvariable +0 +8 a\n"

/* What the starting value in force is a part of. */
enum whole { NOTHING, IMAGE, DEFAULT };

struct row {
    const char *line; /* NAME.in of the folder; `lines` has the line itself */
    uint32_t mode;
    const char *start; /* the default; null for LONG_DEFAULT bytes of 0xff */
    const char *listing;
    enum whole whole;
    uint32_t text; /* of the image: where it starts in its text, if it is not empty */
    const char *value;
};

/* In the order of the table, which begins at 1. */
static const struct row rows[] = {
    {"filler", 1, "", "refused 40 0 1\n", NOTHING, 0, ""},
    {"filler", 1, "umax", "layout 2 3 8 none D Z -\n" SOURCE, DEFAULT, 0, ""},
    {"word", 1, "umax", "layout 2 3 8 none D Z =z\n" SOURCE, IMAGE, 6, "z"},
    {"empty", 1, "umax", "layout 2 3 8 none D Z =\n" SOURCE, IMAGE, 0, ""},
    {"field", 0, "umax", "layout 1 1 8 none D Z -\n" FIELD, DEFAULT, 0, ""},
    {"field", 0, "", "layout 1 1 8 none D Z -\n" FIELD, DEFAULT, 0, ""},
    {"path", 1, "umax", "layout 1 1 8 none D Z =x::y\n" FIELD, IMAGE, 0, "x::y"},
    {"no_width", 2, "z", "refused 42 0 0\n", NOTHING, 0, ""},
    {"alone", 1, "z", "refused 43 0 0\n", NOTHING, 0, ""},
    {"opposite", 1, "z", "refused 45 0 1\n", NOTHING, 0, ""},
    {"widths", 1, "z", "refused 41 0 1\n", NOTHING, 0, ""},
    {"colon", 1, "q", "refused 10 0 0\n", NOTHING, 0, ""},
    {"field", 3, "q", "refused 1 0 0\n", NOTHING, 0, ""},
    {"field", 0, NULL, "layout 1 1 8 none D Z -\n" FIELD, DEFAULT, 0, ""},
};

/* Bytes that are lent, with guard bytes before and after them. */
struct lent {
    uint8_t bytes[GUARD + LONG_DEFAULT + GUARD];
    size_t length;
};

static struct lent image, start, area;
static uint64_t told[3]; /* the middle one is lent */
static const uint64_t unwritten = 0xa5a5a5a5a5a5a5a5u;
static const char *name;
static int failures;

static void expect(int right, const char *what) {
    printf("%s: %s: %s\n", name, what, right ? "passed" : "FAILED");
    failures += !right;
}

static uint8_t *of(struct lent *lent) { return lent->bytes + GUARD; }

static void fill(struct lent *lent, const void *bytes, size_t length) {
    memset(lent->bytes, 0xa5, sizeof lent->bytes);
    if (length)
        memcpy(of(lent), bytes, length);
    lent->length = length;
}

/* An input without its mode byte, as the image. */
static void read_image(const char *path) {
    static uint8_t input[51306];
    FILE *file = fopen(path, "rb");
    const size_t length = file ? fread(input, 1, sizeof input, file) : 0;
    if (!length) {
        perror(path);
        exit(2);
    }
    fclose(file);
    fill(&image, input + 1, length - 1);
}

static void read_line_of(const char *folder, const char *line) {
    char path[4096];
    snprintf(path, sizeof path, "%s/%s.in", folder, line);
    read_image(path);
}

/* Runs the image under the default over an area of this length. Whether the bytes that are read, the guards, and the area beyond an
 * answer are as lent after it. */
static int run(uint32_t mode, size_t area_length, uint64_t *outcome) {
    static struct lent image_before, start_before;
    size_t i;
    int as_lent;
    image_before = image;
    start_before = start;
    fill(&area, NULL, 0);
    told[0] = told[1] = told[2] = unwritten;
    *outcome = layout_run_with(of(&image), image.length, mode, of(&start), start.length, of(&area), area_length, told + 1);
    area.length = layout_accepted(*outcome) ? layout_length(*outcome) : 0;
    as_lent = told[0] == unwritten && told[2] == unwritten;
    for (i = 0; i < sizeof area.bytes; i++)
        if ((i < GUARD || i >= GUARD + area.length) && area.bytes[i] != 0xa5)
            as_lent = 0;
    return as_lent && !memcmp(image.bytes, image_before.bytes, sizeof image.bytes)
           && !memcmp(start.bytes, start_before.bytes, sizeof start.bytes);
}

/* Whether the number that is told is written, and hands out what the row says, by its place and by its bytes. */
static int in_force(const struct row *row) {
    const uint8_t *bytes = of(&image), *lent = of(&start);
    const struct layout_bytes value = layout_in_force(told[1], bytes, lent, start.length);
    const uint64_t place = (uint64_t)layout_u32(bytes + 32) + row->text, length = strlen(row->value);
    switch (row->whole) {
    case NOTHING: return told[1] == 0 && !value.bytes && value.length == 0;
    case DEFAULT: return told[1] == LAYOUT_DEFAULT_IN_FORCE && value.bytes == lent && value.length == start.length;
    case IMAGE: break;
    }
    if (length == 0) /* at whatever place in the image */
        return told[1] != 0 && told[1] >> 32 <= image.length && value.bytes == bytes + (told[1] >> 32) && value.length == 0;
    return told[1] == (place << 32 | length) && value.bytes == bytes + place && value.length == length
           && !memcmp(value.bytes, row->value, length);
}

/* Runs a row, from 1. The area keeps its answer. */
static void try_row(const char *folder, size_t number) {
    static uint8_t high[LONG_DEFAULT];
    const struct row *row = &rows[number - 1];
    char what[128];
    uint64_t outcome;
    struct layout_bytes listing;
    int as_lent, same;
    read_line_of(folder, row->line);
    memset(high, 0xff, sizeof high);
    fill(&start, row->start ? row->start : (const char *)high, row->start ? strlen(row->start) : sizeof high);
    as_lent = run(row->mode, LAYOUT_ANY_AREA, &outcome);
    listing = listing_of(outcome, of(&area), of(&image));
    same = listing.length == strlen(row->listing) && !memcmp(listing.bytes, row->listing, listing.length);
    if (!same)
        printf("wanted:\n%sgot:\n%.*s", row->listing, (int)listing.length, (const char *)listing.bytes);
    snprintf(what, sizeof what, "row %u, %s under a default of %u bytes: outcome%s, value in force%s, bytes as lent%s", (unsigned)number,
             row->line, (unsigned)start.length, same ? "" : " WRONG", in_force(row) ? "" : " WRONG", as_lent ? "" : " WRONG");
    expect(same && in_force(row) && as_lent, what);
}

/* Flags, alignment, start and length of the starting value in the answer's head: a default is in none of them. */
static int head_is(uint32_t flags, uint32_t text, uint32_t length) {
    const uint8_t *answer = of(&area);
    return layout_answer_flags(answer) == flags && layout_answer_alignment(answer) == LAYOUT_ALIGN_NONE
           && layout_u32(answer + LAYOUT_HEAD_VALUE) == text && layout_u32(answer + LAYOUT_HEAD_VALUE + 4) == length;
}

static void try_rows(const char *folder) {
    static struct lent fifth;
    for (size_t number = 1; number <= sizeof rows / sizeof *rows; number++) {
        try_row(folder, number);
        if (number == 2)
            expect(head_is(3, 0, 0), "the head of row 2: no starting value");
        if (number == 3)
            expect(head_is(7, 6, 1), "the head of row 3: the prefix");
        if (number == 4)
            expect(head_is(7, 0, 0), "the head of row 4: the empty prefix");
        if (number == 5)
            fifth = area;
        if (number == 6 || number == 14)
            expect(!memcmp(area.bytes, fifth.bytes, sizeof fifth.bytes), "the same bytes in the area as in row 5");
    }
}

/* The default takes no room: two concatenations and three components ask for the same area as without it. */
static void try_areas(const char *folder) {
    const size_t needed = LAYOUT_AREA(2, 3, 0);
    uint64_t outcome;
    read_line_of(folder, "filler");
    fill(&start, "umax", 4);
    expect(run(1, needed, &outcome) && layout_accepted(outcome) && told[1] == LAYOUT_DEFAULT_IN_FORCE, "an area just long enough");
    expect(run(1, needed - 1, &outcome) && layout_number(outcome) == 8 && told[1] == 0, "a shorter area is refused with number 8");
}

/* Whether layout_run comes to this, and layout_run_with under an empty default to the same: 0 for accepted, else a refusal's number. */
static int as_without(const uint8_t *bytes, size_t length, uint32_t mode, size_t area_length, unsigned number) {
    static uint8_t one[LAYOUT_ANY_AREA], other[LAYOUT_ANY_AREA];
    uint64_t outcome, with, where = unwritten;
    struct layout_bytes value;
    memset(one, 0xa5, sizeof one);
    memset(other, 0xa5, sizeof other);
    outcome = layout_run(bytes, length, mode, one, area_length);
    with = layout_run_with(bytes, length, mode, NULL, 0, other, area_length, &where);
    value = layout_in_force(where, bytes, NULL, 0);
    return layout_number(outcome) == number && outcome == with && !memcmp(one, other, sizeof one)
           && where == (number ? 0 : LAYOUT_DEFAULT_IN_FORCE) && !value.bytes && value.length == 0;
}

int main(int argc, char **argv) {
    if (argc != 5)
        return 2;
    name = argv[1];
    try_rows(argv[2]);
    try_areas(argv[2]);
    for (int i = 3; i < argc; i++) {
        read_image(argv[i]);
        expect(as_without(of(&image), image.length, 0, LAYOUT_ANY_AREA, 0), "an empty default means none: accepted");
        expect(as_without(of(&image), image.length, 3, LAYOUT_ANY_AREA, 1), "an empty default means none: mode 3");
        expect(as_without(of(&image), image.length, 0, 40, 8), "an empty default means none: a short area");
    }
    expect(as_without(NULL, 0, 0, 0, 2), "an empty default means none: nothing lent at all");
    read_line_of(argv[2], "filler");
    expect(as_without(of(&image), image.length, 1, LAYOUT_ANY_AREA, 40), "an empty default means none: number 40 is given");
    printf("%s: %d failed\n", name, failures);
    return failures != 0;
}
