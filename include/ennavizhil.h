/* Ennavizhil for C: electronic-seal records of GB/T 38540-2020, read, written and judged.
 *
 * Every answer is one number. ennavizhil_number gives its lowest 8 bits:
 *
 *   0         accepted, written, found or valid
 *   1 to 20   refused; docs/NUMBERS.md says each number in words
 *   21 to 34  a verdict that is not valid
 *   253       not findings
 *   254       absent, or no match
 *   255       the end of a run
 *
 * ennavizhil_above gives the 56 bits above it: with 0 the length, start, count or number of bytes that each function names; with 1 to 19 the place of the
 * refusal, in bytes from the start of the record, run or sheet, and with 18 of a verdict 0; with 20 the bytes, of a table of places the numbers, that the
 * destination would have to have; with a verdict 1 where the notice goes with it, else 0.
 *
 * A slice is a pointer and the number of what stands there. What the caller owes: each pointer is valid for its length, a null pointer has length 0, and a
 * destination lies apart from every source. Nothing is written but a destination: as many bytes as are told with 0, of a table of places its 173 numbers, and
 * nothing where the answer is another. Nothing is kept after a call, and calls share nothing, so they may be made from several threads. */
#ifndef ENNAVIZHIL_H
#define ENNAVIZHIL_H

#include <stddef.h>
#include <stdint.h>

#ifdef __cplusplus
extern "C" {
#endif

enum {
    ENNAVIZHIL_DONE = 0,
    ENNAVIZHIL_NOT_FINDINGS = 253,
    ENNAVIZHIL_ABSENT = 254,
    ENNAVIZHIL_RUN_END = 255
};

/* The number in an answer. */
static inline unsigned ennavizhil_number(uint64_t answer) { return (unsigned)(answer & 255); }

/* What stands above it. */
static inline uint64_t ennavizhil_above(uint64_t answer) { return answer >> 8; }

/* The kinds of records: 0 is a seal, and every other number a signature record. */
enum { ENNAVIZHIL_SEAL = 0, ENNAVIZHIL_SIGNATURE = 1 };

/* The fields by their numbers; docs/FIELDS.md says what each is. */
enum {
    ENNAVIZHIL_SEAL_INFORMATION = 0,
    ENNAVIZHIL_HEADER = 1,
    ENNAVIZHIL_VENDOR = 2,
    ENNAVIZHIL_SEAL_ID = 3,
    ENNAVIZHIL_PROPERTY = 4,
    ENNAVIZHIL_SEAL_TYPE = 5,
    ENNAVIZHIL_SEAL_NAME = 6,
    ENNAVIZHIL_LIST_KIND = 7,
    ENNAVIZHIL_CERTIFICATE_LIST = 8,
    ENNAVIZHIL_LISTED_CERTIFICATE = 9,
    ENNAVIZHIL_LISTED_ENTRY = 10,
    ENNAVIZHIL_LISTED_TYPE = 11,
    ENNAVIZHIL_LISTED_DIGEST = 12,
    ENNAVIZHIL_CREATED = 13,
    ENNAVIZHIL_START = 14,
    ENNAVIZHIL_END = 15,
    ENNAVIZHIL_PICTURE = 16,
    ENNAVIZHIL_PICTURE_TYPE = 17,
    ENNAVIZHIL_PICTURE_DATA = 18,
    ENNAVIZHIL_WIDTH = 19,
    ENNAVIZHIL_HEIGHT = 20,
    ENNAVIZHIL_SEAL_CUSTOM_DATA = 21,
    ENNAVIZHIL_SEAL_CUSTOM_ITEM = 22,
    ENNAVIZHIL_SEAL_CUSTOM_ID = 23,
    ENNAVIZHIL_SEAL_CUSTOM_CRITICAL = 24,
    ENNAVIZHIL_SEAL_CUSTOM_VALUE = 25,
    ENNAVIZHIL_MAKER_CERTIFICATE = 26,
    ENNAVIZHIL_SEAL_ALGORITHM = 27,
    ENNAVIZHIL_SEAL_SIGNED_VALUE = 28,
    ENNAVIZHIL_SIGNED_PART = 29,
    ENNAVIZHIL_WHOLE_SEAL = 30,
    ENNAVIZHIL_SIGNING_TIME = 31,
    ENNAVIZHIL_ORIGINAL_DIGEST = 32,
    ENNAVIZHIL_PROPERTY_TEXT = 33,
    ENNAVIZHIL_SIGNED_CUSTOM_DATA = 34,
    ENNAVIZHIL_SIGNED_CUSTOM_ITEM = 35,
    ENNAVIZHIL_SIGNED_CUSTOM_ID = 36,
    ENNAVIZHIL_SIGNED_CUSTOM_CRITICAL = 37,
    ENNAVIZHIL_SIGNED_CUSTOM_VALUE = 38,
    ENNAVIZHIL_SIGNER_CERTIFICATE = 39,
    ENNAVIZHIL_SIGNATURE_ALGORITHM = 40,
    ENNAVIZHIL_SIGNATURE_VALUE = 41,
    ENNAVIZHIL_STAMP = 42
};

/* A seal, or a signature record, that is the whole input: its length, or the first refusal. */
uint64_t ennavizhil_seal_check(const uint8_t *record, size_t record_length);
uint64_t ennavizhil_signature_check(const uint8_t *record, size_t record_length);

/* A run of signature records: how many it has, or the first refusal. */
uint64_t ennavizhil_run_check(const uint8_t *run, size_t run_length);

/* A run, as a plain number: how many records it has, or how many stand before the first refusal. */
uint64_t ennavizhil_run_records(const uint8_t *run, size_t run_length);

/* One step of a run from a position, with a number of records handed out, both 0 at first: where the record there ends, which is the next position; 255 at
 * the end of the run, with the position; or the first refusal in it. A caller counts one record more for each 0. */
uint64_t ennavizhil_run_step(const uint8_t *run, size_t run_length, size_t position, uint64_t number);

/* The field sheet of a record, into a destination: the bytes written, or the record's refusal, then 20. */
uint64_t ennavizhil_seal_sheet(const uint8_t *record, size_t record_length, uint8_t *sheet, size_t sheet_length);
uint64_t ennavizhil_signature_sheet(const uint8_t *record, size_t record_length, uint8_t *sheet, size_t sheet_length);

/* The record of a field sheet, into a destination: the bytes written, or the sheet's refusal, then 17, then 20. */
uint64_t ennavizhil_seal_write(const uint8_t *sheet, size_t sheet_length, uint8_t *record, size_t record_length);
uint64_t ennavizhil_signature_write(const uint8_t *sheet, size_t sheet_length, uint8_t *record, size_t record_length);

/* Where a field begins in the record, and how many bytes it has. The index is that of the item where the field is in a list, else 0. 254 where the field
 * is absent, past the last item, and for a number above 42. */
uint64_t ennavizhil_field_start(uint8_t kind, const uint8_t *record, size_t record_length, uint8_t field, size_t index);
uint64_t ennavizhil_field_length(uint8_t kind, const uint8_t *record, size_t record_length, uint8_t field, size_t index);

/* An integer, which are the seal type, list kind, width and height: whether it is there, and as a plain number its value, 0 where it is not. 254 for the
 * number of another field. */
uint64_t ennavizhil_value_check(uint8_t kind, const uint8_t *record, size_t record_length, uint8_t field);
int64_t ennavizhil_value(uint8_t kind, const uint8_t *record, size_t record_length, uint8_t field);

/* Whether the custom item of an index is critical, 1 or 0, by the number of one of the two fields that say so. 254 past the last item, for the number of
 * another field, and for that of the signed part's where the record is a seal. */
uint64_t ennavizhil_critical(uint8_t kind, const uint8_t *record, size_t record_length, uint8_t field, size_t index);

/* How many items a list has: the certificate list or custom data, by its number. 254 where it is absent, for the number of another field, and for that of
 * the signed part's custom data where the record is a seal. */
uint64_t ennavizhil_count(uint8_t kind, const uint8_t *record, size_t record_length, uint8_t field);

/* Where the first entry of the certificate list that equals the given bytes begins, and how many bytes it has: a certificate in a list of kind 1, else a
 * digest. 254 where no entry does. */
uint64_t ennavizhil_matching_start(uint8_t kind, const uint8_t *record, size_t record_length, const uint8_t *given, size_t given_length);
uint64_t ennavizhil_matching_length(uint8_t kind, const uint8_t *record, size_t record_length, const uint8_t *given, size_t given_length);

/* All fields by one call: the table of places of a record, 173 numbers at the start of a destination, which is left as it is where the answer is not 0. Under
 * a field's number f, from 4 * f on: 1 if the field is there, else 0; where it begins; how many bytes it has; of a list how many items. Of a field in a
 * list it is the item of the index; the index stands last. With 0 the length of the record; 20 with 173 where the destination has fewer numbers. */
enum { ENNAVIZHIL_TABLE = 173 };
uint64_t ennavizhil_seal_places(const uint8_t *record, size_t record_length, size_t index, size_t *table, size_t table_length);
uint64_t ennavizhil_signature_places(const uint8_t *record, size_t record_length, size_t index, size_t *table, size_t table_length);

/* The findings are 19 numbers; a flag is 0 or 1, a time a whole number whose fourteen decimal digits are YYYYMMDDhhmmss. A time that does not apply, as that
 * of a revocation that is not there, is not looked at. */
enum {
    ENNAVIZHIL_SIGNATURE_GOOD = 0,
    ENNAVIZHIL_SEALING_GOOD = 1,
    ENNAVIZHIL_NOW = 2,
    ENNAVIZHIL_MAKER_CHAIN = 3,
    ENNAVIZHIL_MAKER_USAGE = 4,
    ENNAVIZHIL_MAKER_FIRST = 5,
    ENNAVIZHIL_MAKER_LAST = 6,
    ENNAVIZHIL_MAKER_REVOKED = 7,
    ENNAVIZHIL_MAKER_REVOKED_AT = 8,
    ENNAVIZHIL_SIGNER_CHAIN = 9,
    ENNAVIZHIL_SIGNER_USAGE = 10,
    ENNAVIZHIL_SIGNER_FIRST = 11,
    ENNAVIZHIL_SIGNER_LAST = 12,
    ENNAVIZHIL_SIGNER_REVOKED = 13,
    ENNAVIZHIL_SIGNER_REVOKED_AT = 14,
    ENNAVIZHIL_SEAL_WITHDRAWN = 15,
    ENNAVIZHIL_SEAL_WITHDRAWN_AT = 16,
    ENNAVIZHIL_STAMP_STATE = 17, /* 0 unchecked, 1 bad, 2 good */
    ENNAVIZHIL_STAMP_AT = 18,
    ENNAVIZHIL_FINDINGS = 19
};

/* The verdict on a seal, or on a signature record, by the digest of the original, the signer's digest and the findings: 0 valid or 21 to 34, above it the
 * notice; a refusal of the record, then 18 for a time in the findings that is no real date. 253 for another number of findings, a flag that is not 0 or 1,
 * or a stamp that is not 0, 1 or 2, before anything is read. */
uint64_t ennavizhil_seal_verdict(const uint8_t *record, size_t record_length, const uint8_t *original, size_t original_length, const uint8_t *signer,
                                 size_t signer_length, const uint64_t *findings, size_t findings_length);
uint64_t ennavizhil_signature_verdict(const uint8_t *record, size_t record_length, const uint8_t *original, size_t original_length, const uint8_t *signer,
                                      size_t signer_length, const uint64_t *findings, size_t findings_length);

#ifdef __cplusplus
}
#endif

#endif
