/* A second file with the header, linked into the same program as link.c; it is also compiled under more warnings. */
#include "layout.h"
#include "layout.h"

uint64_t run_elsewhere(const uint8_t *image, uint64_t length, uint8_t *into, uint64_t into_length);
const char *words_elsewhere(uint64_t outcome);
size_t area_elsewhere(int concatenations, int components, int literal_bytes);

uint64_t run_elsewhere(const uint8_t *image, uint64_t length, uint8_t *into, uint64_t into_length) {
    return layout_run(image, length, 0, into, into_length);
}

const char *words_elsewhere(uint64_t outcome) { return layout_words(layout_number(outcome)); }

size_t area_elsewhere(int concatenations, int components, int literal_bytes) {
    return LAYOUT_AREA(concatenations, components, literal_bytes);
}
