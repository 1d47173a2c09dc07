// Our run with one thing wrong, chosen by WRONG, for ../mutants: from 20 on under a default. The true runs are linked under the names
// true_run and true_run_with.
#include <stddef.h>
#include <stdint.h>

uint64_t true_run(const uint8_t *image, size_t image_len, uint32_t mode, uint8_t *area, size_t area_len);
uint64_t true_run_with(const uint8_t *image, size_t image_len, uint32_t mode, const uint8_t *start, size_t start_len, uint8_t *area,
                       size_t area_len, uint64_t *told);

uint64_t layout_run(const uint8_t *image, size_t image_len, uint32_t mode, uint8_t *area, size_t area_len) {
    uint64_t code = true_run(image, image_len, mode, area, area_len);
    int accepted = code >> 32 == 0;
    switch (WRONG) {
    case 1: // a byte after the area
        area[area_len] ^= accepted;
        break;
    case 2: // a byte before the area
        area[-1] ^= accepted;
        break;
    case 3: // a byte of the area after a refusal
        if (!accepted && area_len)
            area[area_len - 1] ^= 1;
        break;
    case 4: // a byte beyond the answer
        if (accepted && code < area_len)
            area[code] ^= 1;
        break;
    case 5: // a byte of the image
        if (image_len)
            ((uint8_t *)image)[image_len - 1] ^= 1;
        break;
    case 6: // an answer one byte too long
        code += accepted && code < area_len;
        break;
    case 7: // the second place of a refusal
        code += !accepted && code >> 32 > 40;
        break;
    case 8: // accepted, and nothing written
        if (!accepted)
            code = area_len;
        break;
    case 9: // refuses all that the check passes
        code = accepted ? (uint64_t)17 << 32 : code;
        break;
    }
    return code;
}

// The whole default is in force.
#define DEFAULT ((uint64_t)1 << 63)

// How long the true run is told that the default is.
static size_t wrong_length(const uint8_t *start, size_t start_len) {
    switch (WRONG) {
    case 20: // 40 still given
        return 0;
    case 21: // an empty default lifts 40
        return start_len + !start_len;
    case 22: // a default of 16 bits' length
        return start_len & 0xffff;
    case 23: // a default that ends at a zero byte
        return start_len && !start[0] ? 0 : start_len;
    case 24: // no default but UTF-8
        return start_len && start[0] > 0xf4 ? 0 : start_len;
    }
    return start_len;
}

// What is told in place of the truth.
static uint64_t wrong_told(const uint8_t *image, size_t start_len, int accepted, uint64_t told) {
    int own = accepted && told != DEFAULT;
    switch (WRONG) {
    case 30: // the default over the prefix
        return own && start_len ? DEFAULT : told;
    case 31: // an empty prefix taken as none
        return own && !(uint32_t)told ? DEFAULT : told;
    case 32: // told after a refusal
        return accepted ? told : DEFAULT;
    case 33: // a place in the text, not in the image
        return own ? told - ((uint64_t)(image[32] | image[33] << 8 | image[34] << 16) << 32) : told;
    case 34: // the colon with the prefix
        return told + own;
    case 35: // nothing told of an empty default
        return accepted && !own && !start_len ? 0 : told;
    case 36: // nothing told of an empty prefix
        return own && !(uint32_t)told ? 0 : told;
    case 37: // the place and the length turned
        return own ? told << 32 | told >> 32 : told;
    }
    return told;
}

uint64_t layout_run_with(const uint8_t *image, size_t image_len, uint32_t mode, const uint8_t *start, size_t start_len, uint8_t *area,
                         size_t area_len, uint64_t *told) {
    uint64_t true_told;
    size_t length = wrong_length(start, start_len);
    start = start_len ? start : image;
    // an area one byte too long is asked for under a default
    size_t lent = WRONG == 40 && start_len && area_len ? area_len - 1 : area_len;
    uint64_t code = true_run_with(image, image_len, mode, start, length, area, lent, &true_told);
    if (WRONG == 41 && start_len && code >> 32 == 42) // 42 is not given either
        code = true_run_with(image, image_len, 1, start, start_len, area, area_len, &true_told);
    int accepted = code >> 32 == 0;
    if (WRONG == 42 && accepted && true_told == DEFAULT && start_len) // the answer has a starting value too
        area[16] |= 4;
    if (WRONG == 43 && start_len) // a byte of the default
        ((uint8_t *)start)[start_len - 1] ^= 1;
    if (WRONG == 44 && start_len) // a byte after the default
        ((uint8_t *)start)[start_len] ^= 1;
    if (WRONG == 45) // a number beside the one that is told
        told[1] = 0;
    if (WRONG == 46 && !accepted && area_len) // a byte of the area after a refusal
        area[0] ^= 1;
    if (WRONG != 48 && (WRONG != 47 || accepted)) // told left unwritten, always or after a refusal
        *told = wrong_told(image, start_len, accepted, true_told);
    return code;
}
