/* The C examples of README.md, as a whole program: tests/install puts their lines into example.inc. It is given the path of an input, a
 * mode byte and an image, and runs the image as the examples do. */
#include "layout.h"

#include <stdio.h>

static uint8_t input[51306];

static void use(const uint8_t *answer, size_t length) {
    printf("%zu bytes, %u components\n", length, answer[4] + 256u * answer[5]);
}

int main(int argc, char **argv) {
    FILE *file = argc == 2 ? fopen(argv[1], "rb") : NULL;
    if (!file)
        return 2;
    size_t length = fread(input, 1, sizeof input, file);
    fclose(file);
    const uint8_t *image = input + 1;
    length = length > 0 ? length - 1 : 0;
#include "example.inc"
    return 0;
}
