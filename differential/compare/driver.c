// Runs ours on the cases of some files (see src/driver.rs), the image, the default and the area each in an allocation of just its
// length, so that valgrind sees any byte read or written outside. The area's bytes, and the number that a run under a default tells,
// count as unset until they are written: nothing may depend on them, and every byte of an answer must be set. So do the default's
// bytes all the time: the run looks at its length only. A list of tokens stands in the image's place and its text in the default's.
#include <stdint.h>
#include <stdio.h>
#include <stdlib.h>
#include <string.h>
#include <valgrind/memcheck.h>

uint64_t layout_run(const uint8_t *image, size_t image_len, uint32_t mode, uint8_t *area, size_t area_len);
uint64_t layout_run_with(const uint8_t *image, size_t image_len, uint32_t mode, const uint8_t *start, size_t start_len, uint8_t *area,
                         size_t area_len, uint64_t *told);

uint64_t layout_tokens(const uint8_t *list, size_t list_len, const uint8_t *text, size_t text_len, uint8_t *area, size_t area_len);

// Stands for the default's length where none is lent.
#define NO_DEFAULT UINT32_MAX

// Stands for the mode of a list of tokens.
#define TOKENS UINT32_MAX

struct entry {
    uint32_t mode, image_len, area_len, start_len;
    uint64_t code, told;
    uint8_t *image, *start, *answer;
    size_t answer_len;
};

static void stop(const char *why) {
    fprintf(stderr, "driver: %s\n", why);
    exit(2);
}

// Exactly so many bytes of a file in an allocation of just that length.
static uint8_t *bytes_of(FILE *file, size_t length) {
    uint8_t *bytes = malloc(length);
    if ((!bytes && length) || fread(bytes, 1, length, file) != length)
        stop("the file is cut off");
    return bytes;
}

static uint64_t number(const uint8_t *bytes, int length) {
    uint64_t number = 0;
    for (int i = length; i > 0; i--)
        number = number << 8 | bytes[i - 1];
    return number;
}

static int next(FILE *file, struct entry *entry) {
    uint8_t head[32];
    size_t got = fread(head, 1, sizeof head, file);
    if (got == 0)
        return 0;
    if (got != sizeof head)
        stop("the file is cut off");
    entry->mode = (uint32_t)number(head, 4);
    entry->image_len = (uint32_t)number(head + 4, 4);
    entry->area_len = (uint32_t)number(head + 8, 4);
    entry->start_len = (uint32_t)number(head + 12, 4);
    entry->code = number(head + 16, 8);
    entry->told = number(head + 24, 8);
    entry->answer_len = entry->code >> 32 ? 0 : (size_t)entry->code;
    entry->image = bytes_of(file, entry->image_len);
    entry->start = entry->start_len == NO_DEFAULT ? NULL : bytes_of(file, entry->start_len);
    entry->answer = bytes_of(file, entry->answer_len);
    return 1;
}

// What is lent at a place of the area.
static uint8_t lent(size_t at) {
    return (uint8_t)(at * 167 + (at >> 8) + 89);
}

// The run under a default, whose bytes nothing may depend on. Counts what is not as it was.
static uint64_t under(const struct entry *entry, const uint8_t *image, uint8_t *area, int *wrong) {
    uint8_t *start = malloc(entry->start_len);
    uint64_t *told = malloc(sizeof *told);
    if ((!start && entry->start_len) || !told)
        stop("no memory");
    memcpy(start, entry->start, entry->start_len);
    (void)VALGRIND_MAKE_MEM_UNDEFINED(start, entry->start_len);
    uint64_t code = layout_run_with(image, entry->image_len, entry->mode, start, entry->start_len, area, entry->area_len, told);
    (void)VALGRIND_MAKE_MEM_DEFINED(start, entry->start_len);
    *wrong += memcmp(start, entry->start, entry->start_len) != 0;
    *wrong += VALGRIND_CHECK_MEM_IS_DEFINED(told, sizeof *told) || *told != entry->told;
    free(start);
    free(told);
    return code;
}

// A list of tokens and its text. Counts what is not as it was.
static uint64_t tokens(const struct entry *entry, const uint8_t *list, uint8_t *area, int *wrong) {
    uint8_t *text = malloc(entry->start_len);
    if (!text && entry->start_len)
        stop("no memory");
    memcpy(text, entry->start, entry->start_len);
    uint64_t code = layout_tokens(list, entry->image_len, text, entry->start_len, area, entry->area_len);
    *wrong += memcmp(text, entry->start, entry->start_len) != 0;
    free(text);
    return code;
}

// The call that an entry is of.
static uint64_t called(const struct entry *entry, const uint8_t *image, uint8_t *area, int *wrong) {
    if (entry->mode == TOKENS)
        return tokens(entry, image, area, wrong);
    if (entry->start_len == NO_DEFAULT)
        return layout_run(image, entry->image_len, entry->mode, area, entry->area_len);
    return under(entry, image, area, wrong);
}

// How many things are not as they were when the case was written.
static int wrong(const struct entry *entry) {
    uint8_t *area = malloc(entry->area_len), *image = malloc(entry->image_len);
    int wrong = 0;
    if ((!area && entry->area_len) || (!image && entry->image_len))
        stop("no memory");
    memcpy(image, entry->image, entry->image_len);
    for (size_t i = 0; i < entry->area_len; i++)
        area[i] = lent(i);
    (void)VALGRIND_MAKE_MEM_UNDEFINED(area, entry->area_len);
    uint64_t code = called(entry, image, area, &wrong);
    wrong += code != entry->code;
    if (!wrong && entry->answer_len && VALGRIND_CHECK_MEM_IS_DEFINED(area, entry->answer_len))
        wrong++;
    (void)VALGRIND_MAKE_MEM_DEFINED(area, entry->area_len);
    wrong += memcmp(image, entry->image, entry->image_len) != 0;
    if (code == entry->code) {
        wrong += memcmp(area, entry->answer, entry->answer_len) != 0;
        for (size_t i = entry->answer_len; i < entry->area_len; i++)
            wrong += area[i] != lent(i);
    }
    free(area);
    free(image);
    return wrong;
}

// Runs all cases of a file; how many were not as they were.
static int run(const char *name, int *cases) {
    FILE *file = fopen(name, "rb");
    if (!file)
        stop("no such file");
    struct entry entry;
    int errors = 0;
    for (; next(file, &entry); ++*cases) {
        int found = wrong(&entry);
        if (found)
            fprintf(stderr, "driver: case %d is not as it was in the comparison\n", *cases);
        errors += found > 0;
        free(entry.image);
        free(entry.start);
        free(entry.answer);
    }
    fclose(file);
    return errors;
}

int main(int argc, char **argv) {
    int cases = 0, errors = 0;
    if (argc < 2)
        stop("usage: driver FILE..");
    for (int i = 1; i < argc; i++)
        errors += run(argv[i], &cases);
    errors += (int)VALGRIND_COUNT_ERRORS;
    if (!RUNNING_ON_VALGRIND)
        stop("not under valgrind");
    printf("%d cases, %d errors\n", cases, errors);
    return errors > 0;
}
