/* OPERATION TIMES FILE ..: does an operation on the record of each file so many times, and prints the number and the rest of its last answer. */
#include "operations.h"
#include <inttypes.h>
#include <stdio.h>
#include <stdlib.h>
#include <string.h>

uint8_t record[LARGEST];
size_t length;

void stop(const char *why) {
    fprintf(stderr, "%s\n", why);
    exit(2);
}

/* Reads a file. */
static void take(const char *name) {
    FILE *file = fopen(name, "rb");
    if (file == NULL) stop("a file cannot be read");
    length = fread(record, 1, sizeof record, file);
    fclose(file);
}

int main(int count, char **words) {
    if (count < 4) stop("OPERATION TIMES FILE ..");
    const operation *asked = operations;
    while (asked->name != NULL && strcmp(asked->name, words[1]) != 0) asked++;
    if (asked->name == NULL) stop("no such operation");
    int times = atoi(words[2]);
    for (int i = 3; i < count; i++) {
        uint64_t answer = 0;
        take(words[i]);
        if (asked->prepare != NULL) asked->prepare();
        for (int k = 0; k < times; k++) answer = asked->once();
        printf("%u %" PRIu64 "\n", (unsigned)(answer & 255), answer >> 8);
    }
    return 0;
}
