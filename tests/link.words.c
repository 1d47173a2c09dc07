/* Prints the header's version, as a text and from its parts, and the words of each number up to 99 that has any. */
#include "layout.h"

#include <stdio.h>
#include <string.h>

int main(void) {
    printf("version %s %d.%d.%d\n", LAYOUT_VERSION, LAYOUT_VERSION_MAJOR, LAYOUT_VERSION_MINOR, LAYOUT_VERSION_PATCH);
    for (unsigned number = 0; number < 100; number++)
        if (strcmp(layout_words(number), "an unknown number") != 0)
            printf("%u %s\n", number, layout_words(number));
    return 0;
}
