/* The operations of the static library. */
#include "ennavizhil.h"
#include "operations.h"
#include <string.h>

enum { RUN = 100 };

static uint8_t sheet[2 * LARGEST], written[LARGEST], run[RUN * LARGEST];
static size_t sheet_length, run_length;
static size_t table[ENNAVIZHIL_TABLE];

/* One check. */
static uint64_t check(void) { return ennavizhil_signature_check(record, length); }

/* All fields by one call. */
static uint64_t places(void) { return ennavizhil_signature_places(record, length, 0, table, ENNAVIZHIL_TABLE); }

/* One field, the signer certificate: where it starts, and how many bytes it has. */
static uint64_t field(void) {
    uint64_t start = ennavizhil_field_start(ENNAVIZHIL_SIGNATURE, record, length, ENNAVIZHIL_SIGNER_CERTIFICATE, 0);
    uint64_t bytes = ennavizhil_field_length(ENNAVIZHIL_SIGNATURE, record, length, ENNAVIZHIL_SIGNER_CERTIFICATE, 0);
    return ennavizhil_number(start) != ENNAVIZHIL_DONE ? start : bytes;
}

/* One sheet. */
static uint64_t fill(void) { return ennavizhil_signature_sheet(record, length, sheet, sizeof sheet); }

/* Makes the sheet that is written back. */
static void prepare_write(void) {
    uint64_t answer = fill();
    if (ennavizhil_number(answer) != ENNAVIZHIL_DONE) stop("the record has no sheet");
    sheet_length = (size_t)ennavizhil_above(answer);
    answer = ennavizhil_signature_write(sheet, sheet_length, written, sizeof written);
    if (answer != (uint64_t)length << 8 || memcmp(written, record, length) != 0) stop("the sheet is written back as another record");
}

/* One write. */
static uint64_t write_back(void) { return ennavizhil_signature_write(sheet, sheet_length, written, sizeof written); }

/* Findings with which every step holds. */
static const uint64_t findings[ENNAVIZHIL_FINDINGS] = {
    [ENNAVIZHIL_SIGNATURE_GOOD] = 1,
    [ENNAVIZHIL_SEALING_GOOD] = 1,
    [ENNAVIZHIL_NOW] = 20240701000000,
    [ENNAVIZHIL_MAKER_CHAIN] = 1,
    [ENNAVIZHIL_MAKER_USAGE] = 1,
    [ENNAVIZHIL_MAKER_FIRST] = 20230101000000,
    [ENNAVIZHIL_MAKER_LAST] = 20251231235959,
    [ENNAVIZHIL_SIGNER_CHAIN] = 1,
    [ENNAVIZHIL_SIGNER_USAGE] = 1,
    [ENNAVIZHIL_SIGNER_FIRST] = 20230101000000,
    [ENNAVIZHIL_SIGNER_LAST] = 20251231235959,
    [ENNAVIZHIL_STAMP_STATE] = 2,
    [ENNAVIZHIL_STAMP_AT] = 20240630120001,
};

/* The digests of the findings, as parts of the record. */
static const uint8_t *original, *signer;
static size_t original_length, signer_length;

/* Takes the original digest from the record, and from a list of digests the last one for the signer's. */
static void prepare_verdict(void) {
    if (ennavizhil_signature_places(record, length, 0, table, ENNAVIZHIL_TABLE) != (uint64_t)length << 8) stop("the record is refused");
    original = record + table[4 * ENNAVIZHIL_ORIGINAL_DIGEST + 1];
    original_length = table[4 * ENNAVIZHIL_ORIGINAL_DIGEST + 2];
    size_t last = table[4 * ENNAVIZHIL_CERTIFICATE_LIST + 3] - 1;
    if (ennavizhil_signature_places(record, length, last, table, ENNAVIZHIL_TABLE) != (uint64_t)length << 8) stop("the record is refused");
    signer = record + table[4 * ENNAVIZHIL_LISTED_DIGEST + 1];
    signer_length = table[4 * ENNAVIZHIL_LISTED_DIGEST + 2];
}

/* One verdict. */
static uint64_t verdict(void) {
    return ennavizhil_signature_verdict(record, length, original, original_length, signer, signer_length, findings, ENNAVIZHIL_FINDINGS);
}

/* Makes a run of 100 times the record. */
static void prepare_run(void) {
    run_length = 0;
    for (int i = 0; i < RUN; i++) {
        memcpy(run + run_length, record, length);
        run_length += length;
    }
}

/* One run of 100 records. */
static uint64_t read_run(void) { return ennavizhil_run_check(run, run_length); }

const operation operations[] = {
    {"check", NULL, check},
    {"places", NULL, places},
    {"field", NULL, field},
    {"sheet", NULL, fill},
    {"write", prepare_write, write_back},
    {"verdict", prepare_verdict, verdict},
    {"run", prepare_run, read_run},
    {NULL, NULL, NULL},
};
