/* Runs the cases that the unchanged Rust answered (crates/run_replay/data, whose layout is in differential/README.md), prints each
 * listing from the readers of include/layout.h alone (link.listing.c), and compares it with the Rust's, byte for byte. For C and C++,
 * one source. Arguments: a name for the last line, the file `runs`, the file `cuts`. */
#include "link.listing.h"

#include <stdio.h>
#include <stdlib.h>
#include <string.h>

static unsigned accepted, equal, different;

/* One input: a mode byte and an image, over an area of this length, which like the image begins at an odd place. */
static void replay(const uint8_t *input, size_t input_length, size_t area_length, const uint8_t *listing, size_t listing_length) {
    static uint8_t area[LAYOUT_ANY_AREA + 2], image[51306];
    memset(area, 0xa5, sizeof area);
    memcpy(image + 1, input + 1, input_length - 1);
    const uint64_t outcome = layout_run(image + 1, input_length - 1, input[0], area + 1, area_length);
    const struct layout_bytes got = listing_of(outcome, area + 1, image + 1);
    accepted += layout_accepted(outcome) ? 1 : 0;
    if (got.length == listing_length && !memcmp(got.bytes, listing, listing_length)) {
        equal++;
    } else {
        if (!different++)
            printf("first difference, wanted:\n%.*sgot:\n%.*s", (int)listing_length, (const char *)listing, (int)got.length,
                   (const char *)got.bytes);
    }
}

/* A whole file, and its length. */
static uint8_t *read_file(const char *path, size_t *size) {
    const size_t most = 1 << 24;
    uint8_t *bytes = (uint8_t *)malloc(most);
    FILE *file = fopen(path, "rb");
    if (!bytes || !file) {
        perror(path);
        exit(2);
    }
    *size = fread(bytes, 1, most, file);
    fclose(file);
    return bytes;
}

/* Entries of three numbers, and then an input and a listing, or two inputs and their listing. */
static void replay_file(const char *path, int pairs) {
    size_t size, at = 0;
    uint8_t *bytes = read_file(path, &size);
    while (at + 12 <= size) {
        const size_t first = layout_u32(bytes + at), second = layout_u32(bytes + at + 4), last = layout_u32(bytes + at + 8);
        const uint8_t *input = bytes + at + 12, *other = input + first, *listing = pairs ? other + second : other;
        replay(input, first, pairs ? LAYOUT_ANY_AREA : second, listing, last);
        if (pairs)
            replay(other, second, LAYOUT_ANY_AREA, listing, last);
        at = (size_t)(listing - bytes) + last;
    }
    if (at != size)
        different++;
    free(bytes);
}

int main(int argc, char **argv) {
    if (argc != 4)
        return 2;
    replay_file(argv[2], 0);
    replay_file(argv[3], 1);
    printf("%s: %u answers read: %u equal, %u different\n", argv[1], accepted, equal, different);
    return different != 0 || accepted < 1000;
}
