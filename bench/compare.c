/* FILE ..: prints for each signature record the line that the reader by hand answers with, as the check program prints it, after the file's name. It stops
 * where the three forms of the reader answer otherwise than one another or than the library, or note another place. */
#include "ennavizhil.h"
#include "hand.h"
#include <inttypes.h>
#include <stdio.h>
#include <stdlib.h>
#include <string.h>

enum { LARGEST_CASE = 70000 };

static uint8_t record[LARGEST_CASE + 1];
static size_t length;

/* Says of which file something is wrong, and ends. */
static void stop(const char *file, const char *why) {
    fprintf(stderr, "%s: %s\n", file, why);
    exit(1);
}

/* Reads a file. */
static void take(const char *file) {
    FILE *opened = fopen(file, "rb");
    if (opened == NULL) stop(file, "cannot be read");
    length = fread(record, 1, sizeof record, opened);
    fclose(opened);
    if (length > LARGEST_CASE) stop(file, "is too large");
}

/* Holds the table of places of an index to the library's. */
static void compare_places(const char *file, size_t index) {
    size_t by_hand[ENNAVIZHIL_TABLE], proved[ENNAVIZHIL_TABLE];
    for (size_t i = 0; i < ENNAVIZHIL_TABLE; i++) by_hand[i] = proved[i] = 7;
    uint64_t answer = hand_places(record, length, index, by_hand, ENNAVIZHIL_TABLE);
    if (answer != ennavizhil_signature_places(record, length, index, proved, ENNAVIZHIL_TABLE)) stop(file, "places are answered in two ways");
    if (memcmp(by_hand, proved, sizeof proved) != 0) stop(file, "a field has two places");
}

int main(int count, char **files) {
    static const size_t indexes[] = {0, 1, 2, 63, 64};
    for (int i = 1; i < count; i++) {
        take(files[i]);
        uint64_t answer = hand_check(record, length);
        if (answer != hand_check_words(record, length)) stop(files[i], "answered in two ways by hand");
        if (answer != ennavizhil_signature_check(record, length)) stop(files[i], "answered otherwise by the library");
        for (size_t k = 0; k < sizeof indexes / sizeof indexes[0]; k++) compare_places(files[i], indexes[k]);
        const char *slash = strrchr(files[i], '/');
        printf("%s ", slash == NULL ? files[i] : slash + 1);
        if (ennavizhil_number(answer) == ENNAVIZHIL_DONE)
            printf("ACCEPTED %" PRIu64 "\n", ennavizhil_above(answer));
        else
            printf("REFUSED %u %" PRIu64 "\n", ennavizhil_number(answer), ennavizhil_above(answer));
    }
    return 0;
}
