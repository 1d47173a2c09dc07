/* A listing, or a refusal's line, from the readers of include/layout.h alone (link.listing.h). For C and C++, one source. */
#include "link.listing.h"

#include <stdio.h>
#include <stdlib.h>
#include <string.h>

/* The listing as it is written. */
static char text[LAYOUT_ANY_LISTING + 1];
static size_t length;

static void put(const char *word) {
    size_t n = strlen(word);
    if (length + n >= sizeof text)
        exit(2);
    memcpy(text + length, word, n);
    length += n;
}

static void put_number(uint64_t number) {
    char digits[21];
    int at = 20;
    digits[at] = 0;
    do
        digits[--at] = (char)('0' + number % 10);
    while (number /= 10);
    put(digits + at);
}

static void put_hex(uint8_t byte) {
    char digits[3];
    snprintf(digits, sizeof digits, "%02x", byte);
    put(digits);
}

static void put_text(struct layout_bytes shown) {
    for (size_t i = 0; i < shown.length; i++) {
        char one[2] = {(char)shown.bytes[i], 0};
        if (shown.bytes[i] >= 33 && shown.bytes[i] <= 126 && shown.bytes[i] != '\\') {
            put(one);
        } else {
            put("\\");
            put_hex(shown.bytes[i]);
        }
    }
}

/* x with its sign, from its halves: the size is divided by 10 in four parts of 32 bits. */
static void put_x(struct layout_bound bound) {
    const int negative = bound.high >> 63 != 0;
    uint64_t low = negative ? ~bound.low + 1 : bound.low;
    uint64_t high = negative ? ~bound.high + (low == 0) : bound.high;
    uint32_t parts[4] = {(uint32_t)(high >> 32), (uint32_t)high, (uint32_t)(low >> 32), (uint32_t)low};
    char digits[41];
    int at = 40;
    digits[at] = 0;
    do {
        uint64_t rest = 0;
        for (int i = 0; i < 4; i++) {
            rest = rest << 32 | parts[i];
            parts[i] = (uint32_t)(rest / 10);
            rest %= 10;
        }
        digits[--at] = (char)('0' + rest);
    } while (parts[0] | parts[1] | parts[2] | parts[3]);
    put(negative ? "-" : "+");
    put(digits + at);
    /* the reader of 64 bits says the same, or that it cannot */
    int64_t x = 0;
    char again[32] = "";
    const int fits = layout_bound_x(bound, &x);
    if (fits)
        snprintf(again, sizeof again, "%lld", (long long)x);
    if (fits ? strcmp(again + (negative ? 1 : 0), digits + at) != 0 : strlen(digits + at) < 19)
        put(" (layout_bound_x differs)");
}

static void put_bound(struct layout_bound bound) {
    put_text(bound.text);
    put_x(bound);
}

static void put_judged(uint64_t width, enum layout_alignment alignment, uint32_t flags) {
    if (width)
        put_number(width);
    else
        put("-");
    put(" ");
    put(layout_alignment_word(alignment));
    put(flags & LAYOUT_DETERMINISTIC ? " D" : " -");
    put(flags & LAYOUT_NONZERO ? " Z" : " -");
}

/* A listing leaves out a literal's width: a literal of fixed bounds runs from 0 to it. */
static void put_wrong_width(const uint8_t *answer, const uint8_t *image, uint32_t i) {
    const struct layout_bound start = layout_component_start(answer, image, i), end = layout_component_end(answer, image, i);
    int64_t x = 0;
    if (start.text.length || end.text.length)
        return;
    if (!layout_bound_x(start, &x) || x != 0 || !layout_bound_x(end, &x) || x != (int64_t)layout_literal_width(answer, i))
        put(" (layout_literal_width differs)");
}

static void put_component(const uint8_t *answer, const uint8_t *image, uint32_t i) {
    static const char *const kinds[] = {"?", "literal ", "variable ", "filler "};
    const enum layout_kind kind = layout_component_kind(answer, i);
    put(kinds[(unsigned)kind < 4 ? kind : 0]);
    put_bound(layout_component_start(answer, image, i));
    put(" ");
    if (layout_component_has_end(answer, i))
        put_bound(layout_component_end(answer, image, i));
    else
        put("-");
    if (kind == LAYOUT_LITERAL) {
        struct layout_bytes literal = layout_literal_bytes(answer, i);
        put(" ");
        for (size_t k = literal.length; k-- > 0;)
            put_hex(literal.bytes[k]);
        put_wrong_width(answer, image, i);
    } else if (kind == LAYOUT_VARIABLE) {
        put(" ");
        put_text(layout_component_text(answer, image, i));
    }
    put("\n");
}

static void put_answer(const uint8_t *answer, const uint8_t *image) {
    struct layout_bytes value = layout_answer_value(answer, image);
    put("layout ");
    put_number(layout_answer_concatenations(answer));
    put(" ");
    put_number(layout_answer_components(answer));
    put(" ");
    put_judged(layout_answer_width(answer), layout_answer_alignment(answer), layout_answer_flags(answer));
    put(value.bytes ? " =" : " -");
    put_text(value);
    put("\n");
    for (uint32_t c = 0; c < layout_answer_concatenations(answer); c++) {
        const uint32_t first = layout_concatenation_first(answer, c), count = layout_concatenation_components(answer, c);
        put("c ");
        put_number(c);
        put(" ");
        put_number(count);
        put(" ");
        put_judged(layout_concatenation_width(answer, c), layout_concatenation_alignment(answer, c), layout_concatenation_flags(answer, c));
        put("\n");
        for (uint32_t i = first; i < first + count; i++)
            put_component(answer, image, i);
    }
}

static void put_refusal(uint64_t outcome) {
    put("refused ");
    put_number(layout_number(outcome));
    put(" ");
    put_number(layout_concatenation(outcome));
    put(" ");
    put_number(layout_component(outcome));
    put("\n");
}

struct layout_bytes listing_of(uint64_t outcome, const uint8_t *answer, const uint8_t *image) {
    struct layout_bytes listing;
    length = 0;
    if (layout_accepted(outcome))
        put_answer(answer, image);
    else
        put_refusal(outcome);
    listing.bytes = (const uint8_t *)text;
    listing.length = length;
    return listing;
}
