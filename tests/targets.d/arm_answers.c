/* The library on a Cortex-M3 with nothing around it, no C library and no start-up code: reads cases, writes answers. Its lines in and
 * out are the host's: Linux calls under qemu-arm (arm_host.c), files of the debugging host on the board (board_host.c). First of all it
 * tries layout_tokens (arm_tokens.c), which is not asked for by cases.
 *
 * Input: for each case the input's length, the area's length (4 bytes each, little-endian), the input (mode byte and image).
 * Output: for each case the outcome (8 bytes); the number of layout_check, 1 if nothing was written that must not be, the answer's
 * length and the listing's length (4 bytes each); the answer; the listing. */
#include "arm_lines.h"
#include "layout.h"

enum { GUARD = 64, GUARD_BYTE = 0xc3, ANY_INPUT = 1 << 17, ANY_AREA = 1 << 17 };

static uint8_t input_room[GUARD + ANY_INPUT + GUARD], input_copy[ANY_INPUT];
static uint8_t area_room[GUARD + ANY_AREA + GUARD], listing[LAYOUT_ANY_LISTING];

/* Reads all of it: 1, or 0 at the end of the input. A part of it is an error. */
static int take(void *to, uint32_t length)
{
    uint32_t got = 0;
    while (got < length) {
        int n = host_read((uint8_t *)to + got, length - got);
        if (n < 0 || (n == 0 && got > 0))
            host_stop(2);
        if (n == 0)
            return 0;
        got += (uint32_t)n;
    }
    return 1;
}

static void put(const void *from, uint32_t length)
{
    uint32_t done = 0;
    while (done < length) {
        int n = host_write((const uint8_t *)from + done, length - done);
        if (n <= 0)
            host_stop(3);
        done += (uint32_t)n;
    }
}

static void lend(uint32_t input_length, uint32_t area_length)
{
    for (uint32_t i = 0; i < GUARD; i++) {
        input_room[i] = input_room[GUARD + input_length + i] = GUARD_BYTE;
        area_room[i] = area_room[GUARD + area_length + i] = GUARD_BYTE;
    }
    for (uint32_t i = 0; i < input_length; i++)
        input_copy[i] = input_room[GUARD + i];
    for (uint32_t i = 0; i < area_length; i++)
        area_room[GUARD + i] = (uint8_t)(i % 251);
}

/* Whether input, guards and the area from the answer's end on are as lent. */
static uint32_t kept(uint32_t input_length, uint32_t area_length, uint32_t written)
{
    uint32_t good = written <= area_length;
    for (uint32_t i = 0; i < GUARD; i++) {
        good &= input_room[i] == GUARD_BYTE && input_room[GUARD + input_length + i] == GUARD_BYTE;
        good &= area_room[i] == GUARD_BYTE && area_room[GUARD + area_length + i] == GUARD_BYTE;
    }
    for (uint32_t i = 0; i < input_length; i++)
        good &= input_copy[i] == input_room[GUARD + i];
    for (uint32_t i = written; i < area_length; i++)
        good &= area_room[GUARD + i] == (uint8_t)(i % 251);
    return good;
}

static void answer(uint32_t input_length, uint32_t area_length)
{
    const uint8_t *input = input_room + GUARD;
    uint8_t *area = area_room + GUARD;
    uint32_t image_length = input_length > 0 ? input_length - 1 : 0;
    const uint8_t *image = input + (input_length - image_length);
    uint32_t mode = input_length > 0 ? input[0] : 0;
    lend(input_length, area_length);
    host_before();
    uint64_t outcome = layout_run(image, image_length, mode, area, area_length);
    host_after(RUN, stack_here());
    uint32_t written = layout_accepted(outcome) ? (uint32_t)outcome : 0;
    uint32_t good = kept(input_length, area_length, written);
    host_before();
    uint32_t checked = layout_check(image, image_length);
    host_after(CHECK, stack_here());
    host_before();
    uint32_t listed = (uint32_t)layout_listing(input, input_length, listing, sizeof listing);
    host_after(LISTING, stack_here());
    uint32_t numbers[4] = {checked, good, good ? written : 0, listed};
    put(&outcome, sizeof outcome);
    put(numbers, sizeof numbers);
    put(area, numbers[2]);
    put(listing, listed);
}

void answer_all(void)
{
    uint32_t lengths[2];
    if (!tokens_right())
        host_stop(8);
    while (take(lengths, sizeof lengths)) {
        if (lengths[0] > ANY_INPUT || lengths[1] > ANY_AREA)
            host_stop(4);
        if (lengths[0] > 0 && !take(input_room + GUARD, lengths[0]))
            host_stop(5);
        answer(lengths[0], lengths[1]);
    }
}
