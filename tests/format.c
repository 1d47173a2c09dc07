/* Prints the image of an input (one mode byte, then the image) and its answer, then a list of tokens and its image, field by field: the
 * examples in docs/FORMAT.md, which tests/format holds to this output. Every byte of all four must be told of, and once. */
#include "layout.h"

#include <stdarg.h>
#include <stdio.h>
#include <string.h>

/* The bytes that are told of now, and how often each has been. */
static const uint8_t *bytes;
static size_t length;
static unsigned char told[51306];

/* Bytes in hex on a line, and the columns that they take. */
#define ACROSS 16
#define COLUMNS (3 * ACROSS - 1)

static void begin(const uint8_t *all, size_t size) {
    bytes = all;
    length = size;
    memset(told, 0, sizeof told);
}

/* A field: its offset, bytes, name and meaning. */
static void field(size_t at, size_t size, const char *name, const char *meaning, ...) {
    char hex[COLUMNS + 2], shown[600];
    va_list values;
    va_start(values, meaning);
    vsnprintf(shown, sizeof shown, meaning, values);
    va_end(values);
    for (size_t from = 0; from < size; from += ACROSS) {
        int n = 0;
        for (size_t i = from; i < size && i < from + ACROSS; i++) {
            n += snprintf(hex + n, sizeof hex - (size_t)n, "%02x ", bytes[at + i]);
            told[at + i]++;
        }
        hex[n - 1] = 0;
        if (from)
            printf("%5zu  %s\n", at + from, hex);
        else
            printf("%5zu  %-*s  %-32s %s\n", at, COLUMNS, hex, name, shown);
    }
}

/* Whether each byte was told of once. */
static int complete(const char *what) {
    int right = 1;
    for (size_t i = 0; i < length; i++)
        if (told[i] != 1) {
            fprintf(stderr, "%s: byte %zu is told of %d times\n", what, i, told[i]);
            right = 0;
        }
    return right;
}

static const char *named(const char *kind, unsigned i, const char *part) {
    static char name[64];
    snprintf(name, sizeof name, "%s %u%s%s", kind, i, *part ? ": " : "", part);
    return name;
}

/* The image's numbers, by its own offsets. */
static uint32_t number(size_t at) { return layout_u32(bytes + at); }

enum { CONCATENATIONS = 0, COMPONENTS = 4, RECORDS = 8, TEXT = 12, LITERALS = 16, OFFSETS = 20, HEADER = 40 };

static void header(void) {
    static const char *const counts[] = {"concatenations, C", "components, N", "records, R", "text bytes, T", "literal bytes, B"};
    static const char *const tables[] = {"concatenations", "components", "records", "text", "literals"};
    char name[64];
    for (size_t i = 0; i < 5; i++)
        field(4 * i, 4, counts[i], "%u", number(4 * i));
    for (size_t i = 0; i < 5; i++) {
        snprintf(name, sizeof name, "offset of the %s", tables[i]);
        field(OFFSETS + 4 * i, 4, name, "%u", number(OFFSETS + 4 * i));
    }
}

/* Where record r's text starts and ends. */
static uint32_t text_start(uint32_t r) {
    return r == number(RECORDS) ? number(TEXT) : number(number(OFFSETS + 8) + 12 * r + 4);
}

static void record(uint32_t r) {
    static const char *const kinds[] = {"characters", "opens a Space group", "opens (", "opens [", "opens {", "closes"};
    const size_t at = number(OFFSETS + 8) + 12 * r;
    const uint32_t start = text_start(r), size = text_start(r + 1) - start;
    field(at, 12, named("record", r, ""), "kind %u %s, text from %u, skip %u: %.*s", number(at), kinds[number(at)], start, number(at + 8),
          (int)size, (const char *)bytes + number(OFFSETS + 12) + start);
}

static void image_tables(void) {
    const size_t concatenations = number(OFFSETS), components = number(OFFSETS + 4);
    for (uint32_t c = 0; c < number(CONCATENATIONS); c++)
        field(concatenations + 4 * c, 4, named("concatenation", c, "components"), "%u", number(concatenations + 4 * c));
    for (uint32_t k = 0; k < number(COMPONENTS); k++) {
        const uint32_t width = number(components + 8 * k + 4);
        field(components + 8 * k, 4, named("component", k, "records"), "%u", number(components + 8 * k));
        field(components + 8 * k + 4, 4, named("component", k, "literal width"), width ? "%u bits" : "0: no literal", width);
    }
    for (uint32_t r = 0; r < number(RECORDS); r++)
        record(r);
}

/* Text and literal bytes, component by component. */
static void image_bytes(void) {
    const size_t components = number(OFFSETS + 4), text = number(OFFSETS + 12);
    uint32_t r = 0;
    for (uint32_t k = 0; k < number(COMPONENTS); k++) {
        const uint32_t start = text_start(r), stop = text_start(r + number(components + 8 * k));
        field(text + start, stop - start, named("component", k, "text"), "%.*s", (int)(stop - start), (const char *)bytes + text + start);
        r += number(components + 8 * k);
    }
    size_t at = number(OFFSETS + 16);
    for (uint32_t k = 0; k < number(COMPONENTS); k++) {
        const uint32_t width = number(components + 8 * k + 4);
        if (width)
            field(at, (width + 7) / 8, named("component", k, "literal bytes"), "%u bits, lowest byte first", width);
        at += (width + 7) / 8;
    }
}

/* An image, which the bytes now are. */
static int image_fields(const char *what) {
    header();
    image_tables();
    image_bytes();
    return complete(what);
}

/* A text of the answer, by its two numbers. */
static void text_fields(size_t at, const uint8_t *image, const char *kind, unsigned i, const char *of) {
    const struct layout_bytes text = layout_text(bytes + at, image);
    char part[48];
    snprintf(part, sizeof part, "%stext start", of);
    field(at, 4, named(kind, i, part), "%u", layout_u32(bytes + at));
    snprintf(part, sizeof part, "%stext length", of);
    field(at + 4, 4, named(kind, i, part), text.length ? "%u: %.*s" : "0: no text", (unsigned)text.length, (int)text.length,
          (const char *)text.bytes);
}

static void head(void) {
    field(LAYOUT_HEAD_CONCATENATIONS, 4, "concatenations, C", "%u", layout_answer_concatenations(bytes));
    field(LAYOUT_HEAD_COMPONENTS, 4, "components after merging, M", "%u", layout_answer_components(bytes));
    field(LAYOUT_HEAD_WIDTH, 8, "common width", "%llu", (unsigned long long)layout_answer_width(bytes));
    field(LAYOUT_HEAD_FLAGS, 4, "flags", "%u: deterministic %u, nonzero %u, starting value %u", layout_answer_flags(bytes),
          layout_answer_flags(bytes) & LAYOUT_DETERMINISTIC, layout_answer_flags(bytes) / LAYOUT_NONZERO & 1,
          layout_answer_flags(bytes) / LAYOUT_VALUE_GIVEN & 1);
    field(LAYOUT_HEAD_ALIGNMENT, 4, "alignment", "%d: %s", layout_answer_alignment(bytes),
          layout_alignment_word(layout_answer_alignment(bytes)));
    field(LAYOUT_HEAD_VALUE, 4, "starting value's text start", "%u", layout_u32(bytes + LAYOUT_HEAD_VALUE));
    field(LAYOUT_HEAD_VALUE + 4, 4, "starting value's text length", "%u", layout_u32(bytes + LAYOUT_HEAD_VALUE + 4));
}

static void concatenation(uint32_t c) {
    static const char kind[] = "concatenation";
    const size_t at = (size_t)(layout_concatenation_entry(bytes, c) - bytes);
    const uint32_t flags = layout_concatenation_flags(bytes, c);
    const enum layout_alignment alignment = layout_concatenation_alignment(bytes, c);
    field(at + LAYOUT_CONCATENATION_COMPONENTS, 4, named(kind, c, "components"), "%u", layout_concatenation_components(bytes, c));
    field(at + LAYOUT_CONCATENATION_ALIGNMENT, 4, named(kind, c, "alignment"), "%d: %s", alignment, layout_alignment_word(alignment));
    field(at + LAYOUT_CONCATENATION_FLAGS, 4, named(kind, c, "flags"), "%u: deterministic %u, nonzero %u", flags,
          flags & LAYOUT_DETERMINISTIC, flags / LAYOUT_NONZERO & 1);
    field(at + LAYOUT_CONCATENATION_WIDTH, 8, named(kind, c, "static width"), "%llu",
          (unsigned long long)layout_concatenation_width(bytes, c));
}

static void bound(size_t at, const uint8_t *image, uint32_t i, const char *of, struct layout_bound bound) {
    char part[16];
    int64_t x = 0;
    text_fields(at + LAYOUT_BOUND_TEXT, image, "component", i, of);
    snprintf(part, sizeof part, "%sx", of);
    if (layout_bound_x(bound, &x))
        field(at + LAYOUT_BOUND_LOW, 16, named("component", i, part), "%+lld", (long long)x);
}

static void component(const uint8_t *image, uint32_t i) {
    static const char *const kinds[] = {"", "literal", "variable", "filler"};
    const size_t at = (size_t)(layout_component_entry(bytes, i) - bytes);
    const enum layout_kind kind = layout_component_kind(bytes, i);
    const uint32_t width = layout_literal_width(bytes, i);
    field(at + LAYOUT_COMPONENT_KIND, 4, named("component", i, "kind"), "%d: %s", kind, kinds[kind]);
    text_fields(at + LAYOUT_COMPONENT_TEXT, image, "component", i, "");
    field(at + LAYOUT_COMPONENT_LITERAL_WIDTH, 4, named("component", i, "literal width"), width ? "%u bits" : "0: no literal", width);
    field(at + LAYOUT_COMPONENT_LITERAL_OFFSET, 4, named("component", i, "literal offset"), "%u",
          layout_u32(bytes + at + LAYOUT_COMPONENT_LITERAL_OFFSET));
    field(at + LAYOUT_COMPONENT_HAS_END, 4, named("component", i, "end present"), "%d", layout_component_has_end(bytes, i));
    bound(at + LAYOUT_COMPONENT_START, image, i, "start's ", layout_component_start(bytes, image, i));
    bound(at + LAYOUT_COMPONENT_END, image, i, "end's ", layout_component_end(bytes, image, i));
}

static void literals(void) {
    for (uint32_t i = 0; i < layout_answer_components(bytes); i++)
        if (layout_component_kind(bytes, i) == LAYOUT_LITERAL) {
            const struct layout_bytes literal = layout_literal_bytes(bytes, i);
            field((size_t)(literal.bytes - bytes), literal.length, named("component", i, "literal bytes"), "%u bits, lowest byte first",
                  layout_literal_width(bytes, i));
        }
}

static int answer_fields(const uint8_t *answer, const uint8_t *image) {
    head();
    for (uint32_t c = 0; c < layout_answer_concatenations(answer); c++)
        concatenation(c);
    for (uint32_t i = 0; i < layout_answer_components(answer); i++)
        component(image, i);
    literals();
    return complete("answer");
}

/* The example of tokens: kind, text start and length of each. */
enum { IDENTIFIER = LAYOUT_TOKEN_IDENTIFIER, PUNCTUATION = LAYOUT_TOKEN_PUNCTUATION };
static const char line[] = "shop as u16[..n], amount; card";
static const struct {
    int kind;
    uint32_t start, length;
} tokens[] = {
    {IDENTIFIER, 0, 4},   {IDENTIFIER, 5, 2},   {IDENTIFIER, 8, 3},   {LAYOUT_TOKEN_BRACKET, 0, 0},
    {PUNCTUATION, 12, 1}, {PUNCTUATION, 13, 1}, {IDENTIFIER, 14, 1},  {LAYOUT_TOKEN_CLOSER, 0, 0},
    {PUNCTUATION, 16, 1}, {IDENTIFIER, 18, 6},  {PUNCTUATION, 24, 1}, {IDENTIFIER, 26, 4},
};
#define TOKENS (sizeof tokens / sizeof *tokens)

static void token(uint32_t k) {
    static const char *const kinds[] = {"identifier", "punctuation", "literal", "opens a Space group",
                                        "opens (",    "opens [",     "opens {", "closes"};
    const uint32_t kind = number(12 * k), start = number(12 * k + 4), size = number(12 * k + 8);
    const char *const name = named("token", k, "");
    if (kind <= LAYOUT_TOKEN_LITERAL)
        field(12 * k, 12, name, "kind %u %s, text from %u, length %u: %.*s", kind, kinds[kind], start, size, (int)size, line + start);
    else
        field(12 * k, 12, name, "kind %u %s", kind, kinds[kind]);
}

/* The tokens and the image that is written from them: whether every byte was told of once. */
static int token_fields(void) {
    static uint8_t list[TOKENS * LAYOUT_TOKEN_SIZE], image[LAYOUT_ANY_IMAGE];
    uint8_t *end = list;
    for (size_t k = 0; k < TOKENS; k++)
        end = layout_put_token(end, (enum layout_token_kind)tokens[k].kind, tokens[k].start, tokens[k].length);
    const uint64_t outcome = layout_tokens(list, sizeof list, (const uint8_t *)line, sizeof line - 1, image, sizeof image);
    if (!layout_accepted(outcome))
        return 0;
    begin(list, (size_t)(end - list));
    printf("\n### A list of tokens\n\nOf the text `%s`: %zu bytes.\n\n```\n", line, length);
    for (uint32_t k = 0; k < TOKENS; k++)
        token(k);
    const int right = complete("list");
    begin(image, layout_length(outcome));
    printf("```\n\n### Its image\n\n%zu bytes.\n\n```\n", length);
    return image_fields("image of tokens") && right;
}

int main(int argc, char **argv) {
    static uint8_t input[51306], area[LAYOUT_ANY_AREA];
    FILE *file = argc == 2 ? fopen(argv[1], "rb") : NULL;
    const size_t size = file ? fread(input, 1, sizeof input, file) : 0;
    const uint64_t outcome = layout_run(input + 1, size ? size - 1 : 0, input[0], area, sizeof area);
    if (!size || !layout_accepted(outcome)) {
        fprintf(stderr, "format: give it an input that is accepted\n");
        return 2;
    }
    begin(input + 1, size - 1);
    printf("### An image\n\n`%s` without its first byte, the mode: %zu bytes.\n\n```\n", argv[1], length);
    int right = image_fields("image");
    begin(area, layout_length(outcome));
    printf("```\n\n### Its answer\n\nIn mode %u: %zu bytes.\n\n```\n", input[0], length);
    right = answer_fields(area, input + 1) && right;
    printf("```\n");
    right = token_fields() && right;
    printf("```\n");
    return right ? 0 : 1;
}
