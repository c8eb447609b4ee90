/* The operations of the reader by hand. */
#include "ennavizhil.h"
#include "hand.h"
#include "operations.h"

static size_t table[ENNAVIZHIL_TABLE];

/* One check. */
static uint64_t check(void) { return hand_check(record, length); }

/* One check that looks at text by eight bytes at a time. */
static uint64_t words(void) { return hand_check_words(record, length); }

/* All fields by one call. */
static uint64_t places(void) { return hand_places(record, length, 0, table, ENNAVIZHIL_TABLE); }

const operation operations[] = {
    {"check", NULL, check},
    {"words", NULL, words},
    {"places", NULL, places},
    {NULL, NULL, NULL},
};
