/* The layout reader: five functions of the static library crates/layout_c/out/liblayout_c.a, which `rt lib` in crates/layout_c proves
 * and writes (for x86-64 Linux). They take any bytes, allocate nothing, keep nothing between calls, and write nothing but what is lent to
 * be written; so threads may call them at the same time. The archive calls nothing but memset (`nm -u`). For C99, C11 and C++11
 * or later. docs/FORMAT.md has the bytes of an image and of an answer.
 *
 *     uint8_t area[LAYOUT_ANY_AREA];
 *     uint64_t outcome = layout_run(image, image_length, 0, area, sizeof area);
 *     if (layout_accepted(outcome)) {
 *         for (uint32_t i = 0; i < layout_answer_components(area); i++)
 *             if (layout_component_kind(area, i) == LAYOUT_VARIABLE) {
 *                 struct layout_bytes name = layout_component_text(area, image, i);
 *                 printf("%.*s\n", (int)name.length, (const char *)name.bytes);
 *             }
 *     } else {
 *         printf("refused %u %u %u: %s\n", layout_number(outcome), layout_concatenation(outcome), layout_component(outcome),
 *                layout_words(layout_number(outcome)));
 *     }
 *
 * The same under a default, a starting value that the shop sets once:
 *
 *     uint64_t told;
 *     outcome = layout_run_with(image, image_length, 1, start, start_length, area, sizeof area, &told);
 *     struct layout_bytes value = layout_in_force(told, image, start, start_length);
 *
 * From an editor's tokens to an image, which then is run as above:
 *
 *     uint8_t image[LAYOUT_ANY_IMAGE];
 *     outcome = layout_tokens(list, list_length, text, text_length, image, sizeof image);
 *     if (layout_accepted(outcome))
 *         outcome = layout_run(image, layout_length(outcome), 0, area, sizeof area);
 */
#ifndef LAYOUT_H
#define LAYOUT_H

#include <stddef.h>
#include <stdint.h>

#ifdef __cplusplus
extern "C" {
#endif

/* The version of this header, of the library beside it and of the Rust crate in bindings/. */
#define LAYOUT_VERSION_MAJOR 0
#define LAYOUT_VERSION_MINOR 3
#define LAYOUT_VERSION_PATCH 0
#define LAYOUT_VERSION "0.3.0"

/* The five functions. Lengths are uint64_t and not size_t: the compiled library takes 64-bit lengths on every target, on a 32-bit one
 * too. On x86-64 it is the same call. */

/* Runs a prepared image: modes 0 no return type, 1 return type, 2 return type and static width (any other is refused).
 *
 * Accepted: the answer's length, which is below 2^32; the answer stands in the area from its first byte, the bytes after it are as
 * lent. Refused: number * 2^32 + concatenation * 2^16 + component, and the whole area is as lent.
 *
 * image and area are image_length and area_length bytes that do not overlap; where a length is 0 the pointer may be null. */
uint64_t layout_run(const uint8_t *image, uint64_t image_length, uint32_t mode, uint8_t *area, uint64_t area_length);

/* The same run under a default: any bytes, of any length, which are the starting value of a line that has no prefix of its own. They are
 * never parsed, copied or written. An empty default means none: the run is then that of layout_run. Under any other, number 40 is not
 * given and the next test answers; nothing else in outcome and area depends on it. The answer, its listing and number 8 speak only of
 * the line's own prefix.
 *
 * *told is written by every call, in every mode. It says where the starting value in force stands (layout_in_force hands it out):
 *     0                         after a refusal: there is none
 *     LAYOUT_DEFAULT_IN_FORCE   the line has no prefix: it is the whole default, which may be empty
 *     place * 2^32 + length     the line's own prefix, even an empty one: bytes of the image, the place counted from its first
 *
 * image, start and area are bytes of the lengths beside them; where a length is 0 the pointer may be null. area and *told overlap
 * neither each other nor what is read. */
uint64_t layout_run_with(const uint8_t *image, uint64_t image_length, uint32_t mode, const uint8_t *start, uint64_t start_length,
                         uint8_t *area, uint64_t area_length, uint64_t *told);

#define LAYOUT_DEFAULT_IN_FORCE 0x8000000000000000u /* 2^63 */

/* The text that the program `layout` prints, for an input of one mode byte and an image: its length. Where the text is longer than
 * out, the answer is 0, and out has its first part; LAYOUT_ANY_LISTING bytes are enough for any. The bytes after the text are as lent.
 * It keeps an area of LAYOUT_ANY_AREA bytes on the stack. */
uint64_t layout_listing(const uint8_t *input, uint64_t input_length, uint8_t *out, uint64_t out_length);

/* The image check alone: 0 for an image that passes it, else the number that refuses it, 2 to 7. */
uint32_t layout_check(const uint8_t *image, uint64_t image_length);

/* Writes the image of an editor's flat list of tokens, which are parts of a text: both are any bytes.
 *
 * A token is LAYOUT_TOKEN_SIZE bytes, three little-endian numbers: its kind (enum layout_token_kind), where its text starts, and how long
 * that is. A closer closes the innermost open group, of whatever kind. Start and length of openers and closers are not looked at.
 * Texts may overlap, repeat and stand in any order.
 *
 * Outside all groups a `,` that is punctuation ends a component, and a `;` a concatenation too; inside a group, also one without
 * delimiters, they are plain characters. Identifiers that follow each other become one text, a space between each two; every other
 * token is a record of its own. The list has the most significant component of a concatenation first, as a line has it; the image has
 * it last.
 *
 * Accepted: the image's length, which is below 2^32; the image stands in the area from its first byte, the bytes after it are as lent.
 * It passes layout_check and goes to layout_run. Its literal widths are 0, so layout_run refuses a component that begins with a digit
 * or `-` with number 17, until its width and its bits are filled in.
 *
 * Refused: number * 2^32, both places being 0, and the whole area is as lent. Each is tested over the whole list before the next:
 *     50  the list is not in twelves; a kind is above 7; a text (kinds 0 to 2) is empty or not within the lent text; punctuation is not
 *         of one byte; a closer where no group is open; a group that is never closed
 *     51  a component has no token; the empty list is one such component, and one stands after a `,` or `;` that ends the list
 *     52  more than 16 concatenations, 256 components, 2,048 records, 16,384 bytes of text, or 32 groups in each other
 *     53  the area is shorter than the image; LAYOUT_ANY_IMAGE bytes are enough for any
 *
 * list, text and area are bytes of the lengths beside them; where a length is 0 the pointer may be null. The area overlaps neither list
 * nor text. */
uint64_t layout_tokens(const uint8_t *list, uint64_t list_length, const uint8_t *text, uint64_t text_length, uint8_t *area,
                       uint64_t area_length);

#define LAYOUT_TOKEN_SIZE 12

enum layout_token_kind {
    LAYOUT_TOKEN_IDENTIFIER = 0,
    LAYOUT_TOKEN_PUNCTUATION = 1, /* one byte */
    LAYOUT_TOKEN_LITERAL = 2,
    LAYOUT_TOKEN_SPACE = 3, /* opens a group without delimiters */
    LAYOUT_TOKEN_PARENTHESIS = 4,
    LAYOUT_TOKEN_BRACKET = 5,
    LAYOUT_TOKEN_BRACE = 6,
    LAYOUT_TOKEN_CLOSER = 7
};

/* Writes a token into a list: the place after it. */
static inline uint8_t *layout_put_token(uint8_t *at, enum layout_token_kind kind, uint32_t start, uint32_t length) {
    const uint32_t numbers[3] = {(uint32_t)kind, start, length};
    int i;
    for (i = 0; i < LAYOUT_TOKEN_SIZE; i++)
        at[i] = (uint8_t)(numbers[i / 4] >> 8 * (i % 4));
    return at + LAYOUT_TOKEN_SIZE;
}

/* The stack that a call takes below its caller's frame, in bytes: measured, not proved, and rounded up. On x86-64 the most that 3,826
 * recorded inputs took is 30,100 for layout_run, 30,148 for layout_run_with (which LAYOUT_RUN_STACK is for too), 57,156 for
 * layout_listing, 5,364 for layout_check; on a Cortex-M3, built with -Os, the most is 29,124 for layout_run,
 * 56,156 for layout_listing and 4,396 for layout_check. layout_tokens, however long the list and however deep its groups, takes 488
 * bytes at most on x86-64 (docs/PERFORMANCE.md). */
#define LAYOUT_RUN_STACK 32768
#define LAYOUT_LISTING_STACK 65536
#define LAYOUT_CHECK_STACK 8192
#define LAYOUT_TOKENS_STACK 1024

/* The answer area in bytes: its head, each concatenation, each component. */
#define LAYOUT_HEAD_SIZE 32
#define LAYOUT_CONCATENATION_SIZE 20
#define LAYOUT_COMPONENT_SIZE 72

/* The area that an image with so many concatenations, components and literal bytes asks for (a shorter one is number 8), and one that
 * is long enough for any image: 26,976 bytes. */
#define LAYOUT_AREA(concatenations, components, literal_bytes)                                    \
    ((size_t)LAYOUT_HEAD_SIZE + LAYOUT_CONCATENATION_SIZE * (size_t)(concatenations)              \
     + LAYOUT_COMPONENT_SIZE * (size_t)(components) + (size_t)(literal_bytes))
#define LAYOUT_ANY_AREA LAYOUT_AREA(16, 256, 8192)
#define LAYOUT_ANY_LISTING 140577

/* The longest image, with 8,192 literal bytes: an area for layout_tokens that is long enough for any list (which has none of those, and
 * so needs 43,112 bytes at most). */
#define LAYOUT_ANY_IMAGE 51304

/* What an outcome of layout_run, layout_run_with and layout_tokens says. */
static inline int layout_accepted(uint64_t outcome) { return outcome >> 32 == 0; }

/* accepted: the answer's length; of layout_tokens, the image's */
static inline size_t layout_length(uint64_t outcome) { return (size_t)outcome; }

/* refused: the number, 1 to 45 or, by layout_tokens, 50 to 53, and two places, counted from 0 and 0 where there is none */
static inline unsigned layout_number(uint64_t outcome) { return (unsigned)(outcome >> 32); }
static inline unsigned layout_concatenation(uint64_t outcome) { return (unsigned)(outcome >> 16) & 0xffff; }
static inline unsigned layout_component(uint64_t outcome) { return (unsigned)outcome & 0xffff; }

/* What a refusal's number says, in plain words. */
static inline const char *layout_words(unsigned number) {
    switch (number) {
    case 1: return "the mode is above 2";
    case 2: return "the image is shorter than its header";
    case 3: return "a count in the header is out of its range";
    case 4: return "a table's place or the image's length is wrong";
    case 5: return "a concatenation's or component's entry, a sum of them, or a literal's spare bits are wrong";
    case 6: return "a record or its text is wrong";
    case 7: return "groups nest deeper than 32";
    case 8: return "the lent area is too short for this image";
    case 10: return "a starting value's colon with nothing after it";
    case 11: return "a range with nothing before it";
    case 12: return "an empty range";
    case 13: return "a second `..` in a range";
    case 14: return "`...` in a range";
    case 15: return "a bound that is not one token or one group in parentheses";
    case 16: return "a bound's number does not fit 128 bits";
    case 17: return "it begins like a literal, but is none";
    case 20: return "a bound's number, with its text read as a number, does not fit 128 bits";
    case 21: return "a bound below 0";
    case 22: return "a range that ends before it starts";
    case 23: return "a range of width 0";
    case 24: return "a literal's range starts at or above its width";
    case 25: return "a literal's range ends above its width";
    case 26: return "a literal's range is wider than the literal";
    case 27: return "a literal's range from a text to 0";
    case 28: return "a filler that does not start at 0 and has no end";
    case 30: return "a literal where something is copied to";
    case 31: return "nothing but an unbounded filler where something is copied to";
    case 32: return "a second unbounded filler";
    case 33: return "a total width of 0";
    case 34: return "the widths add up to more than 2^64-1";
    case 40: return "a filler in the source, with a return type and no starting value";
    case 41: return "two concatenations of different known widths";
    case 42: return "static width wanted, and none is known";
    case 43: return "one concatenation alone, of no fixed width";
    case 44: return "a filler in the middle, and no width is fixed";
    case 45: return "fillers at opposite ends, and no width is fixed";
    case 50: return "a token is unknown, ill-nested or has a wrong text, or the list ends within one";
    case 51: return "a component without a token";
    case 52: return "too many concatenations, components, records or text bytes for an image, or groups nest deeper than 32";
    case 53: return "the lent area is too short for the tokens' image";
    default: return "an unknown number";
    }
}

/* The answer's bytes: where each number stands in the head, in a concatenation's entry, in a component's and in a bound's. A number has
 * 4 bytes, a width and half an x have 8; all are little-endian. A text is two numbers, its start in the image's text and its length. */
#define LAYOUT_HEAD_CONCATENATIONS 0
#define LAYOUT_HEAD_COMPONENTS 4 /* after merging */
#define LAYOUT_HEAD_WIDTH 8      /* common width, 0 for none */
#define LAYOUT_HEAD_FLAGS 16
#define LAYOUT_HEAD_ALIGNMENT 20
#define LAYOUT_HEAD_VALUE 24     /* the text of the line's own starting value */

#define LAYOUT_CONCATENATION_COMPONENTS 0
#define LAYOUT_CONCATENATION_ALIGNMENT 4
#define LAYOUT_CONCATENATION_FLAGS 8
#define LAYOUT_CONCATENATION_WIDTH 12 /* static width, 0 for none */

#define LAYOUT_COMPONENT_KIND 0
#define LAYOUT_COMPONENT_TEXT 4           /* 0, 0 but for a variable */
#define LAYOUT_COMPONENT_LITERAL_WIDTH 12 /* in bits; 0 but for a literal, as is the next */
#define LAYOUT_COMPONENT_LITERAL_OFFSET 16
#define LAYOUT_COMPONENT_HAS_END 20
#define LAYOUT_COMPONENT_START 24
#define LAYOUT_COMPONENT_END 48           /* zeros where there is none */

#define LAYOUT_BOUND_TEXT 0
#define LAYOUT_BOUND_LOW 8 /* x in two's complement */
#define LAYOUT_BOUND_HIGH 16

#define LAYOUT_DETERMINISTIC 1u
#define LAYOUT_NONZERO 2u
#define LAYOUT_VALUE_GIVEN 4u /* in the head alone */

enum layout_kind { LAYOUT_LITERAL = 1, LAYOUT_VARIABLE = 2, LAYOUT_FILLER = 3 };

/* Where a concatenation's filler without an end stands, or what the concatenations say of it together. */
enum layout_alignment {
    LAYOUT_ALIGN_NONE = 0,    /* there is none; of a whole answer: some concatenation has none */
    LAYOUT_ALIGN_SINGLE = 1,  /* it is the only component */
    LAYOUT_ALIGN_LSB = 2,     /* it is the lowest component */
    LAYOUT_ALIGN_MSB = 3,     /* it is the highest component */
    LAYOUT_ALIGN_MID = 4,     /* it stands between others */
    LAYOUT_ALIGN_MULTIPLE = 5 /* the concatenations differ: no accepted answer has it */
};

/* Readers of an answer. They take for granted that the bytes are an answer which a run accepted and left, and that the image is the one
 * it was run on: nothing is checked again. They read byte by byte, whatever the alignment and the machine, and allocate nothing; what
 * they point to are bytes of the image and of the answer. */
struct layout_bytes {
    const uint8_t *bytes; /* null where there is nothing at all, as a starting value that is not given */
    size_t length;
};

struct layout_bound {
    struct layout_bytes text;
    uint64_t low, high; /* x, in two's complement */
};

static inline uint32_t layout_u32(const uint8_t *at) {
    return (uint32_t)at[0] | (uint32_t)at[1] << 8 | (uint32_t)at[2] << 16 | (uint32_t)at[3] << 24;
}

static inline uint64_t layout_u64(const uint8_t *at) { return layout_u32(at) | (uint64_t)layout_u32(at + 4) << 32; }

/* The bytes that a text's two numbers name; the offset of the image's text is its header's ninth number. */
static inline struct layout_bytes layout_text(const uint8_t *at, const uint8_t *image) {
    struct layout_bytes text;
    text.bytes = image + layout_u32(image + 32) + layout_u32(at);
    text.length = layout_u32(at + 4);
    return text;
}

/* The whole answer: its concatenations, its components after merging, the common width (0 for none), flags, alignment, and the
 * starting value's text: the line's own prefix (null bytes where it has none). */
static inline uint32_t layout_answer_concatenations(const uint8_t *answer) { return layout_u32(answer + LAYOUT_HEAD_CONCATENATIONS); }
static inline uint32_t layout_answer_components(const uint8_t *answer) { return layout_u32(answer + LAYOUT_HEAD_COMPONENTS); }
static inline uint64_t layout_answer_width(const uint8_t *answer) { return layout_u64(answer + LAYOUT_HEAD_WIDTH); }
static inline uint32_t layout_answer_flags(const uint8_t *answer) { return layout_u32(answer + LAYOUT_HEAD_FLAGS); }

static inline enum layout_alignment layout_answer_alignment(const uint8_t *answer) {
    return (enum layout_alignment)layout_u32(answer + LAYOUT_HEAD_ALIGNMENT);
}

static inline struct layout_bytes layout_answer_value(const uint8_t *answer, const uint8_t *image) {
    struct layout_bytes none = {NULL, 0};
    return layout_answer_flags(answer) & LAYOUT_VALUE_GIVEN ? layout_text(answer + LAYOUT_HEAD_VALUE, image) : none;
}

/* The starting value in force, by what layout_run_with told of its image and its default: a part of the image, or the default as it was
 * lent, or null bytes after a refusal. */
static inline struct layout_bytes layout_in_force(uint64_t told, const uint8_t *image, const uint8_t *start, uint64_t start_length) {
    struct layout_bytes value = {NULL, 0};
    if (told == LAYOUT_DEFAULT_IN_FORCE) {
        value.bytes = start;
        value.length = (size_t)start_length;
    } else if (told != 0) {
        value.bytes = image + (size_t)(told >> 32);
        value.length = (size_t)(told & 0xffffffffu);
    }
    return value;
}

/* An alignment's word in a listing. */
static inline const char *layout_alignment_word(enum layout_alignment alignment) {
    switch (alignment) {
    case LAYOUT_ALIGN_NONE: return "none";
    case LAYOUT_ALIGN_SINGLE: return "single";
    case LAYOUT_ALIGN_LSB: return "lsb";
    case LAYOUT_ALIGN_MSB: return "msb";
    case LAYOUT_ALIGN_MID: return "mid";
    case LAYOUT_ALIGN_MULTIPLE: return "multiple";
    }
    return "unknown";
}

/* Concatenation c, from 0: its entry, number of components, static width (0 for none), flags (deterministic, nonzero), alignment. */
static inline const uint8_t *layout_concatenation_entry(const uint8_t *answer, uint32_t c) {
    return answer + LAYOUT_AREA(c, 0, 0);
}

static inline uint32_t layout_concatenation_components(const uint8_t *answer, uint32_t c) {
    return layout_u32(layout_concatenation_entry(answer, c) + LAYOUT_CONCATENATION_COMPONENTS);
}

static inline uint64_t layout_concatenation_width(const uint8_t *answer, uint32_t c) {
    return layout_u64(layout_concatenation_entry(answer, c) + LAYOUT_CONCATENATION_WIDTH);
}

static inline uint32_t layout_concatenation_flags(const uint8_t *answer, uint32_t c) {
    return layout_u32(layout_concatenation_entry(answer, c) + LAYOUT_CONCATENATION_FLAGS);
}

static inline enum layout_alignment layout_concatenation_alignment(const uint8_t *answer, uint32_t c) {
    return (enum layout_alignment)layout_u32(layout_concatenation_entry(answer, c) + LAYOUT_CONCATENATION_ALIGNMENT);
}

/* The first component of concatenation c: its components are this one and those after it, as many as it has. */
static inline uint32_t layout_concatenation_first(const uint8_t *answer, uint32_t c) {
    uint32_t before = 0, i;
    for (i = 0; i < c; i++)
        before += layout_concatenation_components(answer, i);
    return before;
}

/* Component i, counted from 0 over all concatenations, the lowest of each first: its entry, its kind, a variable's text. */
static inline const uint8_t *layout_component_entry(const uint8_t *answer, uint32_t i) {
    return answer + LAYOUT_AREA(layout_answer_concatenations(answer), i, 0);
}

static inline enum layout_kind layout_component_kind(const uint8_t *answer, uint32_t i) {
    return (enum layout_kind)layout_u32(layout_component_entry(answer, i) + LAYOUT_COMPONENT_KIND);
}

static inline struct layout_bytes layout_component_text(const uint8_t *answer, const uint8_t *image, uint32_t i) {
    return layout_text(layout_component_entry(answer, i) + LAYOUT_COMPONENT_TEXT, image);
}

/* A literal's width in bits, and its bytes, the lowest first, the spare high bits of the last being 0. */
static inline uint32_t layout_literal_width(const uint8_t *answer, uint32_t i) {
    return layout_u32(layout_component_entry(answer, i) + LAYOUT_COMPONENT_LITERAL_WIDTH);
}

static inline struct layout_bytes layout_literal_bytes(const uint8_t *answer, uint32_t i) {
    struct layout_bytes literal;
    const uint8_t *block = layout_component_entry(answer, layout_answer_components(answer));
    literal.bytes = block + layout_u32(layout_component_entry(answer, i) + LAYOUT_COMPONENT_LITERAL_OFFSET);
    literal.length = ((size_t)layout_literal_width(answer, i) + 7) / 8;
    return literal;
}

/* Start, whether there is an end, and the end (nothing and 0 where there is none): a text plus a number x. */
static inline struct layout_bound layout_bound_at(const uint8_t *at, const uint8_t *image) {
    struct layout_bound bound;
    bound.text = layout_text(at + LAYOUT_BOUND_TEXT, image);
    bound.low = layout_u64(at + LAYOUT_BOUND_LOW);
    bound.high = layout_u64(at + LAYOUT_BOUND_HIGH);
    return bound;
}

static inline struct layout_bound layout_component_start(const uint8_t *answer, const uint8_t *image, uint32_t i) {
    return layout_bound_at(layout_component_entry(answer, i) + LAYOUT_COMPONENT_START, image);
}

static inline int layout_component_has_end(const uint8_t *answer, uint32_t i) {
    return layout_u32(layout_component_entry(answer, i) + LAYOUT_COMPONENT_HAS_END) != 0;
}

static inline struct layout_bound layout_component_end(const uint8_t *answer, const uint8_t *image, uint32_t i) {
    return layout_bound_at(layout_component_entry(answer, i) + LAYOUT_COMPONENT_END, image);
}

/* A bound's x: 1, and the number in *x, where it fits 64 bits; else 0, and *x is as it was. */
static inline int layout_bound_x(struct layout_bound bound, int64_t *x) {
    const int negative = bound.low >> 63 != 0;
    if (bound.high != (negative ? UINT64_MAX : 0))
        return 0;
    *x = negative ? -(int64_t)~bound.low - 1 : (int64_t)bound.low;
    return 1;
}

#ifdef __cplusplus
}
#endif

#endif
