/* What the tests of the library print: the listing of an accepted run's answer, or the line of a refusal. It stands until the next call. */
#ifndef LINK_LISTING_H
#define LINK_LISTING_H

#include "layout.h"

struct layout_bytes listing_of(uint64_t outcome, const uint8_t *answer, const uint8_t *image);

#endif
