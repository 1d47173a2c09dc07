// Our layout_tokens with one thing wrong, chosen by WRONG from 60 on, for ../mutants. The true one is linked under the name true_tokens.
// Where it can be, the wrong is a right call with another list: a list in which a literal is an identifier is one with literals joined.
#include "wrong_lists.h"

// A list that the true call accepts, read in another way. Whether there is one.
static int reread(const uint8_t *text, size_t text_len) {
    switch (WRONG) {
    case 60: // components not turned
        put_unturned(text, text_len);
        return 1;
    case 61: // concatenations turned too
        put_turned(0, tokens, text, text_len, ';');
        return 1;
    case 62: // literals joined
    case 63: // groups without delimiters in parentheses
    case 64: // an identifier or a literal `,` divides
    case 65: // identifiers not joined
        put_from(0, tokens);
        for (size_t i = 0; i < made; i++) {
            if (WRONG == 62 && to[i].kind == LITERAL)
                to[i].kind = IDENTIFIER;
            if (WRONG == 63 && to[i].kind == SPACE)
                to[i].kind = PARENTHESIS;
            if (WRONG == 64 && has_text(to[i], text, text_len, ','))
                to[i].kind = PUNCTUATION;
            if (WRONG == 65 && to[i].kind == IDENTIFIER)
                to[i].kind = LITERAL;
        }
        return 1;
    case 66: // a comma in a group divides
        put_commas_out(text, text_len);
        return 1;
    case 67: // a group without delimiters dropped
        put_without_spaces();
        return 1;
    }
    return 0;
}

// A list with 50, as it is read where that is not seen. Whether there is one.
static int pardoned(size_t list_len, size_t text_len) {
    int depth = 0;
    size_t tail = list_len % TOKEN;
    for (size_t i = 0; i < tokens; i++) {
        struct token t = from[i];
        int leaf = t.kind <= LITERAL, within = in_text(t, text_len);
        if (WRONG == 70) // kinds of one byte
            t.kind &= 0xff;
        if (WRONG == 71 && leaf && !within && t.start + t.length <= text_len) // start and length added in 32 bits
            t.start = 0, t.length = 1;
        if (WRONG == 72 && t.kind == PUNCTUATION && within && t.length > 1) // punctuation of more bytes
            t.length = 1;
        if (WRONG == 73 && leaf && !t.length) // an empty text
            t.start = 0, t.length = 1;
        if (WRONG == 74 && leaf && !within && t.start + (uint64_t)t.length == text_len + 1) // one byte outside
            t.start = 0, t.length = 1;
        depth += opens(t) - (t.kind == CLOSER);
        if (WRONG == 75 && depth < 0) // a closer of nothing
            depth = 0;
        else
            put(t);
    }
    for (; WRONG == 76 && depth > 0; depth--) // an opener not closed
        put_kind(CLOSER);
    return WRONG >= 70 && WRONG <= 77 && (WRONG == 77 || !tail); // 77: a list not in twelves
}

// What is looked at and may not be: refused with 50.
static int disliked(const uint8_t *text, size_t text_len) {
    uint64_t end = 0;
    for (size_t i = 0; i < tokens; i++) {
        struct token t = from[i];
        int leaf = t.kind <= LITERAL && in_text(t, text_len);
        if (WRONG == 80 && t.kind > LITERAL && !in_text(t, text_len)) // a group's text
            return 1;
        if (WRONG == 81 && leaf && t.start < end) // texts not in order
            return 1;
        if (WRONG == 82 && t.kind == PUNCTUATION && leaf && (text[t.start] | 32) >= 'a' && (text[t.start] | 32) <= 'z') // a letter
            return 1;
        if (WRONG == 83 && leaf && t.length && text[t.start] > 0xf4) // no UTF-8
            return 1;
        end = leaf ? t.start + (uint64_t)t.length : end;
    }
    return 0;
}

static int deepest(void) {
    int depth = 0, most = 0;
    for (size_t i = 0; i < tokens; i++) {
        depth += opens(from[i]) - (from[i].kind == CLOSER);
        most = depth > most ? depth : most;
    }
    return most;
}

// Whether an image with these counts is at the limit that the wrong takes for one too many.
static int at_limit(const uint8_t *image) {
    static const uint32_t most[] = {16, 256, 2048, 16384};
    return WRONG == 94 ? deepest() == 32 : WRONG >= 90 && WRONG < 94 && number(image + 4 * (WRONG - 90)) == most[WRONG - 90];
}

// What is told in place of a refusal.
static uint32_t wrong_number(uint32_t refused, const uint8_t *text, size_t text_len, size_t area_len) {
    // what an image needs at the least: its head, a record for each group's token and literal, the texts
    size_t needed = 40;
    for (size_t i = 0; i < tokens; i++)
        needed += TOKEN * (from[i].kind >= LITERAL) + (from[i].kind <= LITERAL ? from[i].length : 1);
    switch (WRONG) {
    case 100: // 52 before 51
        put_without_empty(text, text_len);
        return refused == 51 && made && call_made(text, text_len, beside, sizeof beside) >> 32 == 52 ? 52 : refused;
    case 101: // 53 before 52
    case 102: // 53 before 51
    case 103: // 53 before 50
        return refused == (uint32_t)(153 - WRONG) && area_len < needed ? 53 : refused;
    case 104: // the nesting tested with 50
        return refused == 50 && deepest() > 32 ? 52 : refused;
    case 105: // an empty component refused before the list is known to be right
        return refused == 50 && tokens && part_end(0, text, text_len, ',', ';') == 0 ? 51 : refused;
    }
    return refused;
}

// A byte that is not to be written.
static void write_wrongly(const uint8_t *list, size_t list_len, const uint8_t *text, size_t text_len, uint8_t *area, size_t area_len,
                          uint64_t code) {
    uint32_t refused = (uint32_t)(code >> 32);
    if ((WRONG == 110 && refused == 53) || (WRONG == 111 && refused == 52) || (WRONG == 112 && refused == 51) ||
        (WRONG == 113 && refused == 50)) { // the area written before this is tested
        if (area_len)
            area[0] ^= 1;
    }
    if (WRONG == 114 && !refused && code < area_len) // a byte beyond the image
        area[code] ^= 1;
    if (WRONG == 115 && !refused) // a byte after the area
        area[area_len] ^= 1;
    if (WRONG == 116 && !refused) // a byte before the area
        area[-1] ^= 1;
    if (WRONG == 117 && list_len) // a byte of the list
        ((uint8_t *)list)[list_len - 1] ^= 1;
    if (WRONG == 118 && text_len) // a byte of the text
        ((uint8_t *)text)[0] ^= 1;
}

// The image written wrongly.
static void image_wrongly(const uint8_t *text, size_t text_len, uint8_t *image) {
    uint8_t *record = image + number(image + 28);
    uint32_t at = number(image + 32), length = number(image + 12);
    switch (WRONG) {
    case 120: // skips one short
        for (uint32_t i = 0; i < number(image + 8); i++, record += TOKEN)
            put_number(record + 8, number(record + 8) - (number(record + 8) > 1));
        break;
    case 121: // the texts in the written order
        put_unturned(text, text_len);
        call_made(text, text_len, beside, sizeof beside);
        memcpy(image + at, beside + at, length);
        break;
    case 122: // no offset where there are no literal bytes
        put_number(image + 36, 0);
        break;
    }
}

uint64_t layout_tokens(const uint8_t *list, size_t list_len, const uint8_t *text, size_t text_len, uint8_t *area, size_t area_len) {
    read_list(list, list_len);
    if (disliked(text, text_len))
        return (uint64_t)50 << 32;
    if (WRONG >= 90 && WRONG <= 94 && !(true_tokens(list, list_len, text, text_len, beside, sizeof beside) >> 32) && at_limit(beside))
        return (uint64_t)52 << 32;
    uint64_t code = true_tokens(list, list_len, text, text_len, area, area_len - (WRONG == 95 && area_len));
    uint32_t refused = (uint32_t)(code >> 32);
    if (!refused && reread(text, text_len))
        return call_made(text, text_len, area, area_len);
    if (refused == 50 && pardoned(list_len, text_len))
        return call_made(text, text_len, area, area_len);
    if (refused == 51 && WRONG == 84 && !list_len) // an empty list is an empty image
        return 0;
    if (refused == 51 && WRONG == 85 && part_end(tokens - 1, text, text_len, ',', ';') == tokens - 1) { // a trailing component
        put_from(0, tokens - 1);
        return call_made(text, text_len, area, area_len);
    }
    made = 0;
    if (!refused)
        image_wrongly(text, text_len, area);
    write_wrongly(list, list_len, text, text_len, area, area_len, code);
    if (WRONG == 119 && !refused && code < area_len) // an image one byte too long
        return code + 1;
    return refused ? (uint64_t)wrong_number(refused, text, text_len, area_len) << 32 : code;
}
