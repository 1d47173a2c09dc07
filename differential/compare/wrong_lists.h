// Lists of tokens read, and made anew from what was read, for wrong_tokens.c. The true layout_tokens is linked under the name true_tokens.
#include <stddef.h>
#include <stdint.h>
#include <string.h>

uint64_t true_tokens(const uint8_t *list, size_t list_len, const uint8_t *text, size_t text_len, uint8_t *area, size_t area_len);

enum { IDENTIFIER, PUNCTUATION, LITERAL, SPACE, PARENTHESIS, CLOSER = 7, TOKEN = 12, MOST = 1 << 18 };

struct token {
    uint32_t kind, start, length;
};

// A list as tokens, and what is made of it.
static struct token from[MOST], to[MOST];
static size_t tokens, made;
// Another list's bytes, and an image besides the one that is asked for.
static uint8_t other[TOKEN * MOST], beside[1 << 17];

static uint32_t number(const uint8_t *at) {
    return at[0] | at[1] << 8 | at[2] << 16 | (uint32_t)at[3] << 24;
}

static void put_number(uint8_t *at, uint32_t number) {
    for (int i = 0; i < 4; i++)
        at[i] = (uint8_t)(number >> 8 * i);
}

static void read_list(const uint8_t *list, size_t list_len) {
    tokens = list_len / TOKEN;
    made = 0;
    for (size_t i = 0; i < tokens; i++, list += TOKEN)
        from[i] = (struct token){number(list), number(list + 4), number(list + 8)};
}

static void put(struct token token) {
    to[made++] = token;
}

static void put_kind(uint32_t kind) {
    put((struct token){kind, 0, 0});
}

static void put_from(size_t begin, size_t end) {
    while (begin < end)
        put(from[begin++]);
}

// The true call with the list that was made.
static uint64_t call_made(const uint8_t *text, size_t text_len, uint8_t *area, size_t area_len) {
    for (size_t i = 0; i < made; i++) {
        put_number(other + TOKEN * i, to[i].kind);
        put_number(other + TOKEN * i + 4, to[i].start);
        put_number(other + TOKEN * i + 8, to[i].length);
    }
    return true_tokens(other, TOKEN * made, text, text_len, area, area_len);
}

static int opens(struct token token) {
    return token.kind >= SPACE && token.kind < CLOSER;
}

static int in_text(struct token token, size_t text_len) {
    return (uint64_t)token.start + token.length <= text_len;
}

static int has_text(struct token token, const uint8_t *text, size_t text_len, char byte) {
    return token.kind <= LITERAL && token.length == 1 && in_text(token, text_len) && text[token.start] == (uint8_t)byte;
}

static int divides(struct token token, const uint8_t *text, size_t text_len, char byte) {
    return token.kind == PUNCTUATION && has_text(token, text, text_len, byte);
}

// Where the part that begins at a token ends: at a top-level divider, of the one byte or the other.
static size_t part_end(size_t at, const uint8_t *text, size_t text_len, char one, char two) {
    for (int depth = 0; at < tokens; at++) {
        depth += opens(from[at]) - (from[at].kind == CLOSER);
        if (!depth && (divides(from[at], text, text_len, one) || divides(from[at], text, text_len, two)))
            return at;
    }
    return tokens;
}

// The parts from begin to end in the other order; they are parted by a byte at the top.
static void put_turned(size_t begin, size_t end, const uint8_t *text, size_t text_len, char byte) {
    size_t next = part_end(begin, text, text_len, byte, byte);
    if (next >= end) {
        put_from(begin, end);
        return;
    }
    put_turned(next + 1, end, text, text_len, byte);
    put(from[next]);
    put_from(begin, next);
}

// Components as they are written: turned, so that they are turned back.
static void put_unturned(const uint8_t *text, size_t text_len) {
    for (size_t at = 0; at <= tokens;) {
        size_t end = part_end(at, text, text_len, ';', ';');
        put_turned(at, end, text, text_len, ',');
        if (end < tokens)
            put(from[end]);
        at = end + 1;
    }
}

// A comma in a group: all groups are closed before it, and opened again after it.
static void put_commas_out(const uint8_t *text, size_t text_len) {
    static uint32_t open[MOST];
    size_t depth = 0;
    for (size_t i = 0; i < tokens; i++) {
        int comma = depth && divides(from[i], text, text_len, ',');
        for (size_t d = 0; comma && d < depth; d++)
            put_kind(CLOSER);
        put(from[i]);
        for (size_t d = 0; comma && d < depth; d++)
            put_kind(open[d]);
        if (opens(from[i]))
            open[depth++] = from[i].kind;
        depth -= from[i].kind == CLOSER;
    }
}

// Groups without delimiters are left out, not what they hold.
static void put_without_spaces(void) {
    static uint32_t open[MOST];
    size_t depth = 0;
    for (size_t i = 0; i < tokens; i++) {
        if (opens(from[i]))
            open[depth++] = from[i].kind;
        int closes = from[i].kind == CLOSER;
        if (from[i].kind != SPACE && !(closes && open[depth - 1] == SPACE))
            put(from[i]);
        depth -= closes;
    }
}

// No divider at the end, at the beginning, or after a divider.
static void put_without_empty(const uint8_t *text, size_t text_len) {
    for (size_t at = 0; at <= tokens;) {
        size_t end = part_end(at, text, text_len, ',', ';');
        if (at < end && made)
            put(from[at - 1]);
        put_from(at, end);
        at = end + 1;
    }
}
