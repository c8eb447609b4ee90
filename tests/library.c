/* Answers the cases of standard input through the library, each the four bytes of its size and its bytes, with a line for each; second/README.md has their
 * form. With the word "house" it tests instead what no case asks for, and says how many answers were right. */
#include "ennavizhil.h"
#include <inttypes.h>
#include <stdio.h>
#include <stdlib.h>
#include <string.h>

#define LARGEST 70000

typedef struct {
    const uint8_t *at;
    size_t length;
} slice;

/* The case, and how much of it was taken. */
static uint8_t space[LARGEST];
static size_t size, taken;

static void stop(const char *why) {
    fprintf(stderr, "library: %s\n", why);
    exit(2);
}

static uint64_t number(size_t bytes) {
    uint64_t n = 0;
    if (bytes > size - taken) stop("a case is cut");
    while (bytes-- > 0) n = n << 8 | space[taken++];
    return n;
}

static slice bytes(void) {
    slice s;
    s.length = (size_t)number(4);
    if (s.length > size - taken) stop("a case is cut");
    s.at = s.length == 0 ? NULL : space + taken;
    taken += s.length;
    return s;
}

static unsigned num(uint64_t answer) { return ennavizhil_number(answer); }

static void refused(uint64_t answer) { printf("REFUSED %u %" PRIu64, num(answer), ennavizhil_above(answer)); }

/* Prints an answer by the word for 0; whether it was 0. */
static int told(const char *word, uint64_t answer) {
    if (num(answer) == ENNAVIZHIL_DONE)
        printf("%s %" PRIu64, word, ennavizhil_above(answer));
    else if (num(answer) == ENNAVIZHIL_ABSENT)
        printf("ABSENT");
    else
        refused(answer);
    return num(answer) == ENNAVIZHIL_DONE;
}

/* Prints a part by its two answers; whether there is one. */
static int part(uint64_t start, uint64_t length) {
    if (num(start) != num(length)) stop("start and length have two numbers");
    int there = told("PART", start);
    if (there) printf(" %" PRIu64, ennavizhil_above(length));
    return there;
}

static void answer_run(slice run) {
    uint64_t answer = ennavizhil_run_check(run.at, run.length);
    uint64_t records = ennavizhil_run_records(run.at, run.length);
    if (!told("RECORDS", answer))
        printf(" AFTER %" PRIu64, records);
    else if (records != ennavizhil_above(answer))
        stop("a run has two numbers of records");
}

static void answer_step(uint64_t position, uint64_t handed, slice run) {
    uint64_t answer = ennavizhil_run_step(run.at, run.length, (size_t)position, handed);
    if (num(answer) == ENNAVIZHIL_RUN_END)
        printf("END");
    else if (num(answer) != ENNAVIZHIL_DONE) {
        refused(answer);
        printf(" AFTER %" PRIu64, handed);
    } else {
        uint64_t end = ennavizhil_above(answer);
        printf("RECORD %" PRIu64 " %" PRIu64, position, end - position);
        position = end;
        if (handed != UINT64_MAX) handed++;
    }
    printf(" POSITION %" PRIu64 " NUMBER %" PRIu64, position, handed);
}

typedef uint64_t sends(const uint8_t *, size_t, uint8_t *, size_t);

/* A sheet or a record, written to a destination of a size, with a byte on either side that must stay. */
static void answer_send(sends *send, size_t room, slice s) {
    static uint8_t destination[LARGEST + 2];
    if (room > LARGEST) stop("a destination is too large");
    memset(destination, 0xA5, sizeof destination);
    told("WROTE", send(s.at, s.length, destination + 1, room));
    uint64_t sum = 0;
    for (size_t i = 0; i < room; i++) sum = (sum * 257 + destination[1 + i] + 1) % 4294967291u;
    printf(" SUM %" PRIu64, sum);
    if (destination[0] != 0xA5 || destination[1 + room] != 0xA5) stop("a byte beside the destination was changed");
}

/* The field of each code from 1 on. */
static const uint8_t fields[] = {2, 3, 5, 6, 7, 8, 9, 11, 12, 13, 14, 15, 17, 18, 19, 20, 21, 23, 24, 25, 26, 27, 28, 0, 31, 32, 33, 34, 36, 37, 38, 39, 40, 41, 42, 29};

static int is_one_of(uint8_t field, const char *those) { return field != 0 && strchr(those, field) != NULL; }

/* One field; whether there is one. */
static int answer_field(uint8_t kind, unsigned code, size_t index, slice s) {
    if (code == 0 || code > sizeof fields) stop("no such code");
    uint8_t field = fields[code - 1];
    if (is_one_of(field, "\x05\x07\x13\x14")) {
        uint64_t answer = ennavizhil_value_check(kind, s.at, s.length, field);
        int64_t value = ennavizhil_value(kind, s.at, s.length, field);
        if (num(answer) == ENNAVIZHIL_DONE) {
            printf("VALUE %" PRId64, value);
            return 1;
        }
        if (value != 0) stop("a value where there is none");
        return told("VALUE", answer);
    }
    if (is_one_of(field, "\x18\x25")) return told("VALUE", ennavizhil_critical(kind, s.at, s.length, field, index));
    if (is_one_of(field, "\x08\x15\x22")) return told("VALUE", ennavizhil_count(kind, s.at, s.length, field));
    return part(ennavizhil_field_start(kind, s.at, s.length, field, index), ennavizhil_field_length(kind, s.at, s.length, field, index));
}

static void answer_fields(uint8_t kind, unsigned last, slice s) {
    for (unsigned code = 1; code <= last; code++) {
        if (code > 1) printf(",");
        int indexed = is_one_of((uint8_t)code, "\x07\x08\x09\x12\x13\x14\x1d\x1e\x1f");
        for (size_t index = 0; answer_field(kind, code, index, s) && indexed; index++) printf(",");
    }
}

typedef uint64_t judges(const uint8_t *, size_t, const uint8_t *, size_t, const uint8_t *, size_t, const uint64_t *, size_t);

static void answer_verdict(judges *judge) {
    static const uint8_t sizes[ENNAVIZHIL_FINDINGS] = {1, 1, 8, 1, 1, 8, 8, 1, 8, 1, 1, 8, 8, 1, 8, 1, 8, 1, 8};
    uint64_t findings[ENNAVIZHIL_FINDINGS];
    for (size_t i = 0; i < ENNAVIZHIL_FINDINGS; i++) findings[i] = number(sizes[i]);
    slice original = bytes(), signer = bytes(), s = bytes();
    uint64_t answer = judge(s.at, s.length, original.at, original.length, signer.at, signer.length, findings, ENNAVIZHIL_FINDINGS);
    if (num(answer) == 0 || (num(answer) > 20 && num(answer) < ENNAVIZHIL_NOT_FINDINGS))
        printf("JUDGED %u %" PRIu64, num(answer), ennavizhil_above(answer));
    else
        refused(answer);
}

static void answer_case(void) {
    unsigned operation = (unsigned)number(1);
    uint8_t kind = operation % 2 == 1 ? ENNAVIZHIL_SEAL : ENNAVIZHIL_SIGNATURE;
    static sends *const send[] = {ennavizhil_seal_sheet, ennavizhil_signature_sheet, ennavizhil_seal_write, ennavizhil_signature_write};
    uint64_t a, b;
    slice s, given;
    switch (operation) {
    case 1:
        s = bytes();
        told("ACCEPTED", ennavizhil_seal_check(s.at, s.length));
        break;
    case 2:
        s = bytes();
        told("ACCEPTED", ennavizhil_signature_check(s.at, s.length));
        break;
    case 3:
        answer_run(bytes());
        break;
    case 4:
        a = number(8);
        b = number(8);
        answer_step(a, b, bytes());
        break;
    case 5:
    case 6:
    case 7:
    case 8:
        a = number(4);
        answer_send(send[operation - 5], (size_t)a, bytes());
        break;
    case 9:
    case 10:
        a = number(1);
        b = number(8);
        answer_field(kind, (unsigned)a, (size_t)b, bytes());
        break;
    case 11:
        answer_fields(kind, 24, bytes());
        break;
    case 12:
        answer_fields(kind, 36, bytes());
        break;
    case 13:
    case 14:
        given = bytes();
        s = bytes();
        part(ennavizhil_matching_start(kind, s.at, s.length, given.at, given.length),
             ennavizhil_matching_length(kind, s.at, s.length, given.at, given.length));
        break;
    case 15:
        answer_verdict(ennavizhil_seal_verdict);
        break;
    case 16:
        answer_verdict(ennavizhil_signature_verdict);
        break;
    default:
        stop("no such operation");
    }
    printf("\n");
    if (taken != size) stop("bytes of a case are left");
}

static int right, wrong;

static void expect(const char *what, uint64_t is, uint64_t must) {
    if (is == must) {
        right++;
        return;
    }
    wrong++;
    printf("%s: %" PRIu64 ", not %" PRIu64 "\n", what, is, must);
}

/* What no case asks for: numbers that are no field's, rows that are no findings, kinds above 1. */
static int house(void) {
    uint8_t s[LARGEST];
    size_t n = fread(s, 1, sizeof s, stdin);
    expect("the record", num(ennavizhil_signature_check(s, n)), 0);
    for (unsigned field = 43; field < 256; field++) {
        expect("the start of no field", ennavizhil_field_start(1, s, n, (uint8_t)field, 0), 254);
        expect("the length of no field", ennavizhil_field_length(1, s, n, (uint8_t)field, 0), 254);
    }
    for (unsigned field = 0; field < 256; field++) {
        uint8_t f = (uint8_t)field;
        expect("a value", num(ennavizhil_value_check(1, s, n, f)), is_one_of(f, "\x05\x07\x13\x14") ? 0 : 254);
        expect("a critical of a seal", num(ennavizhil_critical(0, s, n, f, 0)), f == 24 ? 2 : 254);
        expect("a count of a seal", num(ennavizhil_count(0, s, n, f)), f == 8 || f == 21 ? 2 : 254);
        if (!is_one_of(f, "\x18\x25")) expect("a critical", ennavizhil_critical(1, s, n, f, 0), 254);
        if (!is_one_of(f, "\x08\x15\x22")) expect("a count", ennavizhil_count(1, s, n, f), 254);
    }
    for (unsigned kind = 1; kind < 256; kind++)
        expect("a field by a kind", ennavizhil_field_start((uint8_t)kind, s, n, 31, 0), ennavizhil_field_start(1, s, n, 31, 0));
    for (size_t length = 0; length < 40; length++) {
        uint64_t findings[40] = {0};
        uint64_t answer = ennavizhil_signature_verdict(s, n, NULL, 0, NULL, 0, length == 0 ? NULL : findings, length);
        expect("findings of a length", num(answer), length == ENNAVIZHIL_FINDINGS ? 18 : 253);
    }
    for (size_t i = 0; i < ENNAVIZHIL_FINDINGS; i++) {
        uint64_t findings[ENNAVIZHIL_FINDINGS] = {0};
        findings[i] = 3;
        int bounded = strchr("\x01\x03\x04\x07\x09\x0a\x0d\x0f\x11", (int)i) != NULL;
        expect("a finding outside its values", num(ennavizhil_seal_verdict(s, n, NULL, 0, NULL, 0, findings, ENNAVIZHIL_FINDINGS)), bounded ? 253 : 2);
    }
    for (size_t index = 0; index < 3; index++) {
        size_t table[ENNAVIZHIL_TABLE + 1];
        for (size_t i = 0; i <= ENNAVIZHIL_TABLE; i++) table[i] = 7;
        expect("a table that is too short", ennavizhil_signature_places(s, n, index, table, ENNAVIZHIL_TABLE - 1), (uint64_t)ENNAVIZHIL_TABLE << 8 | 20);
        expect("a table of a refused record", num(ennavizhil_seal_places(s, n, index, table, ENNAVIZHIL_TABLE)), 2);
        for (size_t i = 0; i <= ENNAVIZHIL_TABLE; i++) expect("a table that is kept", table[i], 7);
        expect("a table", ennavizhil_signature_places(s, n, index, table, ENNAVIZHIL_TABLE + 1), (uint64_t)n << 8);
        expect("what follows a table", table[ENNAVIZHIL_TABLE], 7);
        expect("the index of a table", table[ENNAVIZHIL_TABLE - 1], index);
        for (uint8_t f = 0; f < 43; f++) {
            uint64_t start = ennavizhil_field_start(1, s, n, f, index), length = ennavizhil_field_length(1, s, n, f, index);
            expect("a field of a table", table[4 * f], num(start) == 0);
            expect("the start of a field of a table", table[4 * f + 1], num(start) == 0 ? ennavizhil_above(start) : 0);
            expect("the length of a field of a table", table[4 * f + 2], num(start) == 0 ? ennavizhil_above(length) : 0);
        }
    }
    if (wrong == 0) printf("%d answers that no case asks for, 0 differences\n", right);
    return wrong == 0 ? 0 : 1;
}

int main(int count, char **words) {
    uint8_t head[4];
    if (count == 2 && strcmp(words[1], "house") == 0) return house();
    for (;;) {
        size_t got = fread(head, 1, sizeof head, stdin);
        if (got == 0) break;
        if (got != sizeof head) stop("a size is cut");
        size = (size_t)head[0] << 24 | (size_t)head[1] << 16 | (size_t)head[2] << 8 | head[3];
        taken = 0;
        if (size > LARGEST) stop("a case is too large");
        if (fread(space, 1, size, stdin) != size) stop("a case is cut");
        answer_case();
    }
    return 0;
}
