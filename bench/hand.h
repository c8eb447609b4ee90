/* The reader by hand: each function answers as the one of ennavizhil.h that it is named after. */
#ifndef HAND_H
#define HAND_H

#include <stddef.h>
#include <stdint.h>

/* As ennavizhil_signature_check. The second looks at text by eight bytes at a time. */
uint64_t hand_check(const uint8_t *record, size_t record_length);
uint64_t hand_check_words(const uint8_t *record, size_t record_length);

/* As ennavizhil_signature_places. */
uint64_t hand_places(const uint8_t *record, size_t record_length, size_t index, size_t *table, size_t table_length);

#endif
