/* Reads a signature record from a file and prints its fields by name, or the refusal in words. */
#include "ennavizhil.h"
#include <inttypes.h>
#include <stdio.h>

/* More bytes than a record may have. */
static uint8_t record[70000];

/* The refusals of a record, from 1 on, as docs/NUMBERS.md has them. */
static const char *const refusals[] = {
    "an item is missing: what encloses it, or the input, ends where it must begin",
    "another item stands there: its tag is not the required one",
    "the length is missing, cut off, or not in its one allowed form",
    "the item has more bytes than what encloses it, or the input, has left",
    "bytes are left after the last item",
    "an integer is empty, has more than 8 bytes or is not in its shortest form",
    "a version that is not 4, a list kind that is not 1 or 2, a width or height that is not 1 to 65,535",
    "the header's name is not \"ES\"",
    "a byte is outside the string's alphabet, or no UTF-8",
    "a time is not fourteen digits and Z, or no real date and time",
    "an identifier is empty, has more than 64 bytes, a part that begins with 80 or a last part that does not end",
    "a bit string is empty, or its first byte is not 00",
    "critical is there and is not FF alone",
    "a string that needs a byte has none",
    "the certificate list has no item",
    "a list has a 65th item",
    "the record claims more than 65,535 bytes, header included",
};

/* The fields by their numbers, as docs/FIELDS.md has them. */
static const char *const names[] = {
    "seal information",
    "header",
    "vendor",
    "seal id",
    "property",
    "seal type",
    "seal name",
    "list kind",
    "certificate list",
    "listed certificate",
    "listed entry",
    "listed type",
    "listed digest",
    "created",
    "start",
    "end",
    "picture",
    "picture type",
    "picture data",
    "width",
    "height",
    "seal custom data",
    "seal custom item",
    "seal custom id",
    "seal custom critical",
    "seal custom value",
    "maker certificate",
    "seal algorithm",
    "seal signed value",
    "signed part",
    "seal",
    "signing time",
    "original digest",
    "property text",
    "signed custom data",
    "signed custom item",
    "signed custom id",
    "signed custom critical",
    "signed custom value",
    "signer certificate",
    "signature algorithm",
    "signature value",
    "stamp",
};

/* Prints a field's bytes as text where all of them are printable, else the first eight as numbers. */
static void print_bytes(const uint8_t *at, size_t length) {
    size_t printable = 0;
    while (printable < length && at[printable] >= ' ' && at[printable] <= '~') printable++;
    if (printable == length) {
        printf(" \"%.*s\"", (int)length, (const char *)at);
        return;
    }
    for (size_t i = 0; i < length && i < 8; i++) printf(" %02X", at[i]);
    if (length > 8) printf(" ..");
}

int main(int count, char **words) {
    FILE *file = count == 2 ? fopen(words[1], "rb") : NULL;
    if (file == NULL) {
        fprintf(stderr, "usage: example FILE\n");
        return 2;
    }
    size_t length = fread(record, 1, sizeof record, file);
    fclose(file);
    size_t table[ENNAVIZHIL_TABLE];
    uint64_t answer = ennavizhil_signature_places(record, length, 0, table, ENNAVIZHIL_TABLE);
    if (ennavizhil_number(answer) != ENNAVIZHIL_DONE) {
        printf("refused with %u at %" PRIu64 ": %s\n", ennavizhil_number(answer), ennavizhil_above(answer), refusals[ennavizhil_number(answer) - 1]);
        return 1;
    }
    printf("accepted, %" PRIu64 " bytes\n", ennavizhil_above(answer));
    for (size_t i = 0; i < sizeof names / sizeof *names; i++) {
        const size_t *place = table + 4 * i;
        printf("%s:", names[i]);
        if (place[0] == 0)
            printf(" absent");
        else if (ennavizhil_number(ennavizhil_value_check(ENNAVIZHIL_SIGNATURE, record, length, (uint8_t)i)) == ENNAVIZHIL_DONE)
            printf(" %" PRId64, ennavizhil_value(ENNAVIZHIL_SIGNATURE, record, length, (uint8_t)i));
        else
            print_bytes(record + place[1], place[2]);
        printf("\n");
    }
    return 0;
}
