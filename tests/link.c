/* Links the static library and holds its functions to include/layout.h, in C and in C++. The two inputs are examples/whole.in and
 * cut.in, which this program is given as arguments after a name for its lines: a mode byte and an image each. */
#include "layout.h"

#include <stdio.h>
#include <stdlib.h>
#include <string.h>

#define GUARD 64

/* 2 concatenations and 3 components after merging: head, 2 entries, 3 components, 2 literal bytes */
#define LENGTH LAYOUT_AREA(2, 3, 2)

struct input {
    uint8_t bytes[51306];
    size_t length;
};

static const char *name;
static int failures;
static struct input whole, cut;
static uint8_t area[LAYOUT_ANY_AREA + GUARD];
static const size_t all = sizeof area;

/* In link.twice.c, which includes the header too. */
uint64_t run_elsewhere(const uint8_t *image, uint64_t length, uint8_t *into, uint64_t into_length);
const char *words_elsewhere(uint64_t outcome);

static void expect(int right, const char *what) {
    printf("%s: %s: %s\n", name, what, right ? "passed" : "FAILED");
    failures += !right;
}

static void read_input(struct input *input, const char *path) {
    FILE *file = fopen(path, "rb");
    if (!file) {
        perror(path);
        exit(2);
    }
    input->length = fread(input->bytes, 1, sizeof input->bytes, file);
    fclose(file);
}

/* Whether the bytes from one place to another are all as lent. */
static int as_lent(const uint8_t *s, size_t from, size_t to) {
    for (size_t i = from; i < to; i++)
        if (s[i] != 0xa5)
            return 0;
    return 1;
}

static uint64_t run(const struct input *input, uint32_t mode, size_t length) {
    memset(area, 0xa5, all);
    return layout_run(input->bytes + 1, input->length - 1, mode, area, length);
}

static int is(struct layout_bytes bytes, const char *text) {
    return bytes.length == strlen(text) && !memcmp(bytes.bytes, text, bytes.length);
}

/* Both lines give the same answer, whose fields are these. */
static void accepted(const struct input *input, const char *what) {
    const uint8_t *image = input->bytes + 1;
    const uint64_t outcome = run(input, 0, LAYOUT_ANY_AREA);
    int64_t x = 0;
    expect(layout_accepted(outcome) && layout_length(outcome) == LENGTH, what);
    expect(as_lent(area, LENGTH, all), "bytes beyond the answer and the area as lent");
    expect(layout_answer_concatenations(area) == 2 && layout_answer_components(area) == 3, "the answer's counts");
    expect(layout_answer_width(area) == 40 && layout_answer_flags(area) == (LAYOUT_DETERMINISTIC | LAYOUT_NONZERO)
               && layout_answer_alignment(area) == LAYOUT_ALIGN_NONE && !layout_answer_value(area, image).bytes,
           "the answer's width, flags, alignment, no starting value");
    expect(layout_concatenation_components(area, 0) == 2 && layout_concatenation_first(area, 1) == 2
               && layout_concatenation_components(area, 1) == 1 && layout_concatenation_width(area, 1) == 40,
           "the concatenations");
    expect(layout_component_kind(area, 0) == LAYOUT_VARIABLE && is(layout_component_text(area, image, 0), "amount")
               && layout_component_kind(area, 2) == LAYOUT_VARIABLE && is(layout_component_text(area, image, 2), "card"),
           "the variables");
    expect(layout_component_kind(area, 1) == LAYOUT_LITERAL && layout_literal_width(area, 1) == 16
               && is(layout_literal_bytes(area, 1), "\x34\x12"),
           "the literal");
    expect(layout_component_has_end(area, 0) && layout_bound_x(layout_component_end(area, image, 0), &x) && x == 24
               && layout_bound_x(layout_component_start(area, image, 0), &x) && x == 0,
           "the bounds");
}

static void refused(void) {
    uint64_t outcome = run(&whole, 0, LENGTH);
    expect(layout_length(outcome) == LENGTH && as_lent(area, LENGTH, all), "an area that is just long enough, guard bytes as lent");
    outcome = run(&whole, 0, LENGTH - 1);
    expect(!layout_accepted(outcome) && layout_number(outcome) == 8, "a shorter area is refused with number 8");
    expect(as_lent(area, 0, all), "the area as lent after that");
    outcome = run(&whole, 3, LAYOUT_ANY_AREA);
    expect(layout_number(outcome) == 1 && as_lent(area, 0, all), "mode 3 is refused with number 1");

    /* a concatenation that has not so many components */
    static struct input broken;
    broken = whole;
    broken.bytes[1 + 40] = 9;
    outcome = run(&broken, 0, LAYOUT_ANY_AREA);
    expect(layout_number(outcome) == 5 && as_lent(area, 0, all), "a damaged image is refused with number 5");

    /* the literal moved into the sink: concatenation 0 loses its components to concatenation 1 */
    broken.bytes[1 + 40] = 1;
    broken.bytes[1 + 44] = 2;
    outcome = run(&broken, 0, LAYOUT_ANY_AREA);
    expect(layout_number(outcome) == 30 && layout_concatenation(outcome) == 1 && layout_component(outcome) == 0,
           "a literal in a sink is refused with number 30 and its places");
    expect(as_lent(area, 0, all), "the area as lent after that");
}

static void empty(void) {
    memset(area, 0xa5, all);
    uint64_t outcome = layout_run(NULL, 0, 0, area, LAYOUT_ANY_AREA);
    expect(layout_number(outcome) == 2 && as_lent(area, 0, all), "no image at all is refused with number 2");
    outcome = layout_run(whole.bytes + 1, whole.length - 1, 0, NULL, 0);
    expect(layout_number(outcome) == 8, "no area at all is refused with number 8");
    outcome = layout_run(NULL, 0, 7, NULL, 0);
    expect(layout_number(outcome) == 1, "nothing at all in mode 7 is refused with number 1");
    expect(LAYOUT_ANY_AREA == 26976, "the greatest area");
    expect(layout_check(whole.bytes + 1, whole.length - 1) == 0, "the image passes the check alone");
    expect(layout_check(whole.bytes + 1, whole.length - 2) == 4, "an image that is a byte short has the wrong length");
    expect(layout_check(NULL, 0) == 2, "no image at all does not pass the check");
    expect(layout_length(run_elsewhere(whole.bytes + 1, whole.length - 1, area, LAYOUT_ANY_AREA)) == LENGTH
               && !strcmp(words_elsewhere(outcome), layout_words(1)),
           "the same from a second file with the header");
}

static void listings(void) {
    static const char none[] = "refused 2 0 0\n";
    static const char card[] = "layout 2 3 40 none D Z -\nc 0 2 40 none D Z\nvariable +0 +24 amount\nliteral +0 +16 1234\n"
                               "c 1 1 40 none D Z\nvariable +0 +40 card\n";
    static uint8_t text[LAYOUT_ANY_LISTING + GUARD];
    const size_t length = sizeof card - 1;
    memset(text, 0xa5, sizeof text);
    expect(layout_listing(NULL, 0, text, LAYOUT_ANY_LISTING) == 14 && !memcmp(text, none, 14) && as_lent(text, 14, sizeof text),
           "the listing of no input");
    expect(layout_listing(whole.bytes, whole.length, text, LAYOUT_ANY_LISTING) == length && !memcmp(text, card, length)
               && as_lent(text, length, sizeof text),
           "the listing of the line");
    memset(text, 0xa5, sizeof text);
    expect(layout_listing(cut.bytes, cut.length, text, LAYOUT_ANY_LISTING) == length && !memcmp(text, card, length),
           "the listing of the cut line is the same");
    memset(text, 0xa5, sizeof text);
    expect(layout_listing(whole.bytes, whole.length, text, length - 1) == 0 && as_lent(text, length - 1, sizeof text),
           "a shorter buffer is said to be too short, guard bytes as lent");
    expect(layout_listing(NULL, 0, NULL, 0) == 0, "no buffer at all");
}

int main(int argc, char **argv) {
    if (argc != 4)
        return 2;
    name = argv[1];
    read_input(&whole, argv[2]);
    read_input(&cut, argv[3]);
    accepted(&whole, "the line accepted, with the answer's length");
    accepted(&cut, "the cut line accepted, its pieces merged");
    refused();
    empty();
    listings();
    printf("%s: %d failed\n", name, failures);
    return failures != 0;
}
