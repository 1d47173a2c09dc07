// Times the image check of the static library on the largest image of document 01. See the script `leaves`.
#include <stdint.h>
#include <stdio.h>
#include <stdlib.h>
#include <string.h>
#include <time.h>

// A slice is a pointer and a length; 0, or the number of the refusal.
uint32_t layout_check(const uint8_t *image, size_t length);

enum {
    CONCATENATIONS = 16,
    COMPONENTS = 256,
    RECORDS = 2048,
    TEXT = 16384,
    LITERALS = 8192,
    COMPONENT_TABLE = 40 + 4 * CONCATENATIONS,
    RECORD_TABLE = COMPONENT_TABLE + 8 * COMPONENTS,
    TEXT_TABLE = RECORD_TABLE + 12 * RECORDS,
    LITERAL_TABLE = TEXT_TABLE + TEXT,
    IMAGE = LITERAL_TABLE + LITERALS,
    LITERAL = LITERALS / COMPONENTS,
    BATCHES = 401, // short ones, so that most run undisturbed
    ROUNDS = 20,
};

static uint8_t image[IMAGE];
static uint32_t records, text;

static void put(size_t at, uint32_t number) {
    for (int i = 0; i < 4; i++)
        image[at + i] = (uint8_t)(number >> 8 * i);
}

static void record(uint32_t kind, uint8_t byte, uint32_t length, uint32_t skip) {
    put(RECORD_TABLE + 12 * records, kind);
    put(RECORD_TABLE + 12 * records + 4, text);
    put(RECORD_TABLE + 12 * records + 8, skip);
    memset(image + TEXT_TABLE + text, byte, length);
    records++;
    text += length;
}

// 8 records and 64 bytes of text: three groups within each other, a word inside them and one after. The width leaves spare bits.
static void component(uint32_t k) {
    put(COMPONENT_TABLE + 8 * k, RECORDS / COMPONENTS);
    put(COMPONENT_TABLE + 8 * k + 4, 8 * LITERAL - 7);
    memset(image + LITERAL_TABLE + LITERAL * k, 0xff, LITERAL - 1);
    image[LITERAL_TABLE + LITERAL * (k + 1) - 1] = 1;
    record(2, '(', 1, 7);
    record(3, '[', 1, 5);
    record(4, '{', 1, 3);
    record(0, 'a', 29, 1);
    record(5, '}', 1, 1);
    record(5, ']', 1, 1);
    record(5, ')', 1, 1);
    record(0, 'b', 29, 1);
}

static void build(void) {
    const uint32_t header[10] = {CONCATENATIONS, COMPONENTS, RECORDS, TEXT, LITERALS,
                                 40, COMPONENT_TABLE, RECORD_TABLE, TEXT_TABLE, LITERAL_TABLE};
    for (int i = 0; i < 10; i++)
        put(4 * i, header[i]);
    for (int i = 0; i < CONCATENATIONS; i++)
        put(40 + 4 * i, COMPONENTS / CONCATENATIONS);
    for (uint32_t k = 0; k < COMPONENTS; k++)
        component(k);
}

static void expect(uint32_t number, const char *what) {
    uint32_t got = layout_check(image, IMAGE);
    if (got == number)
        return;
    fprintf(stderr, "leaves: %s: the check says %u, not %u\n", what, got, number);
    exit(1);
}

// The image passes, and the check looks at its last literal and its last closer.
static void look(void) {
    expect(0, "the largest image");
    image[IMAGE - 1] ^= 0x80;
    expect(5, "a spare bit");
    image[IMAGE - 1] ^= 0x80;
    image[LITERAL_TABLE - 30] ^= 1;
    expect(6, "a closer");
    image[LITERAL_TABLE - 30] ^= 1;
    expect(0, "the largest image");
}

// The plain loop that the check is compared with.
__attribute__((noinline)) static uint32_t sum(const uint8_t *bytes, size_t length) {
    uint32_t total = 0;
    for (size_t i = 0; i < length; i++)
        total += bytes[i];
    return total;
}

static double now(void) {
    struct timespec t;
    clock_gettime(CLOCK_MONOTONIC, &t);
    return (double)t.tv_sec * 1e6 + (double)t.tv_nsec / 1e3;
}

static int order(const void *a, const void *b) {
    double x = *(const double *)a, y = *(const double *)b;
    return (x > y) - (x < y);
}

// Microseconds a call in one batch. The barrier keeps each call where it stands.
static double batch(uint32_t (*call)(const uint8_t *, size_t)) {
    double from = now();
    for (int i = 0; i < ROUNDS; i++) {
        uint32_t got = call(image, IMAGE);
        __asm__ volatile("" : : "r"(got) : "memory");
    }
    return (now() - from) / ROUNDS;
}

int main(void) {
    static double check[BATCHES], plain[BATCHES];
    build();
    look();
    for (int b = 0; b < BATCHES; b++) {
        check[b] = batch(layout_check);
        plain[b] = batch(sum);
    }
    qsort(check, BATCHES, sizeof check[0], order);
    qsort(plain, BATCHES, sizeof plain[0], order);
    double c = check[BATCHES / 2], p = plain[BATCHES / 2];
    printf("image %d bytes, %d records, %d batches of %d\n", IMAGE, RECORDS, BATCHES, ROUNDS);
    printf("check %.2f us, fastest batch %.2f us\n", c, check[0]);
    printf("sum %.2f us, fastest batch %.2f us\n", p, plain[0]);
    printf("ratio %.1f\n", c / p);
    return 0;
}
