/* layout_tokens on a Cortex-M3: the worked examples 2 and 4 of document 02's L2, by the page's records and texts. The processor is
 * little-endian, so numbers of 4 bytes stand here for the bytes of lists and images. */
#include "arm_lines.h"
#include "layout.h"

enum { GUARD = 64, GUARD_BYTE = 0xc3, ANY_IMAGE = 128, TOO_SHORT = 53 };

struct example {
    const char *text;      /* the lent text */
    const uint32_t *list;  /* kind, start and length of each token */
    const uint32_t *image; /* its header and tables */
    const char *joined;    /* its text */
    uint32_t text_length, tokens, numbers, joined_length;
};

/* `a , b ; c` */
static const uint32_t list_2[] = {0, 0, 1, 1, 2, 1, 0, 4, 1, 1, 6, 1, 0, 8, 1};
static const uint32_t image_2[] = {2, 3, 3, 3, 0, 40, 48, 72, 108, 111, 2, 1, 1, 0, 1, 0, 1, 0, 0, 0, 1, 0, 1, 1, 0, 2, 1};
/* `x y` in a group without delimiters, then `z`; start and length of the group's tokens are not looked at */
static const uint32_t list_4[] = {3, 9, 0xffffffff, 0, 0, 1, 0, 2, 1, 7, 0xffffffff, 9, 0, 4, 1};
static const uint32_t image_4[] = {1, 1, 4, 6, 0, 40, 44, 52, 100, 106, 1, 4, 0, 1, 0, 3, 0, 1, 1, 5, 4, 1, 0, 5, 1};

static const struct example examples[] = {
    {"a , b ; c", list_2, image_2, "bac", 9, 5, sizeof image_2 / 4, 3},
    {"x y z", list_4, image_4, " x y z", 5, 5, sizeof image_4 / 4, 6},
};

static uint8_t room[GUARD + ANY_IMAGE + GUARD];

/* What must stand at a place of the area after so many bytes were written. */
static uint8_t expected(const struct example *each, uint32_t written, uint32_t at)
{
    if (at >= written)
        return GUARD_BYTE;
    if (at < 4 * each->numbers)
        return ((const uint8_t *)each->image)[at];
    return (uint8_t)each->joined[at - 4 * each->numbers];
}

/* Whether the image is written where the area has room for it, else refused with 53, and all other bytes are as lent. */
static int right(const struct example *each, uint32_t area_length)
{
    const uint32_t length = 4 * each->numbers + each->joined_length;
    const uint32_t written = area_length < length ? 0 : length;
    for (uint32_t i = 0; i < sizeof room; i++)
        room[i] = GUARD_BYTE;
    host_before();
    uint64_t outcome = layout_tokens((const uint8_t *)each->list, LAYOUT_TOKEN_SIZE * each->tokens, (const uint8_t *)each->text,
                                     each->text_length, room + GUARD, area_length);
    host_after(TOKENS, stack_here());
    int good = outcome == (written ? written : (uint64_t)TOO_SHORT << 32);
    for (uint32_t i = 0; i < sizeof room; i++)
        good &= room[i] == (i < GUARD ? GUARD_BYTE : expected(each, written, i - GUARD));
    return good;
}

int tokens_right(void)
{
    int good = 1;
    for (uint32_t i = 0; i < sizeof examples / sizeof *examples; i++) {
        const uint32_t length = 4 * examples[i].numbers + examples[i].joined_length;
        good &= right(&examples[i], ANY_IMAGE) & right(&examples[i], length) & right(&examples[i], length - 1);
    }
    return good;
}
