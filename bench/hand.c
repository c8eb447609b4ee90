/* A reader of signature records written by hand: all tests of the rules in the rules' order, the first fault with its number and place. It is compiled three
 * times: as it is, with WORDS to look at text by eight bytes at a time, and with PLACES to note where each field stands. */
#include "hand.h"
#include "ennavizhil.h"
#include <stdbool.h>
#include <string.h>

enum { LARGEST_RECORD = 65535, MOST_ITEMS = 64, MOST_IDENTIFIER_BYTES = 64 };

/* The tags. */
enum {
    BOOLEAN = 0x01,
    INTEGER = 0x02,
    BIT_STRING = 0x03,
    OCTET_STRING = 0x04,
    IDENTIFIER = 0x06,
    UTF8_STRING = 0x0C,
    PRINTABLE_STRING = 0x13,
    IA5_STRING = 0x16,
    TIME = 0x18,
    SEQUENCE = 0x30,
    TAGGED = 0xA0
};

/* Whether a string may have no bytes. */
enum { NOT_EMPTY = 0, MAY_BE_EMPTY = 1 };

/* What is read: the next byte, the end of what encloses it, and the first refusal. With PLACES also the table, the index, and whether what is read now is noted. */
typedef struct {
    const uint8_t *bytes;
    size_t at;
    size_t end;
    uint64_t refusal;
#ifdef PLACES
    size_t *table;
    size_t index;
    bool noted;
#endif
} reader;

/* An item: where its tag stands, and its content. */
typedef struct {
    size_t tag;
    size_t start;
    size_t length;
} item;

/* Keeps a refusal; false, for its caller to hand on. */
static bool refuse(reader *r, unsigned number, size_t place) {
    r->refusal = (uint64_t)place << 8 | number;
    return false;
}

/* Notes a field in the table of places. */
static void note(reader *r, unsigned field, size_t start, size_t length, size_t items) {
#ifdef PLACES
    if (!r->noted) return;
    r->table[4 * field] = 1;
    r->table[4 * field + 1] = start;
    r->table[4 * field + 2] = length;
    r->table[4 * field + 3] = items;
#else
    (void)r, (void)field, (void)start, (void)length, (void)items;
#endif
}

/* Says that what follows is the item of a number in its list; what is in no list has number 0. */
static void now_at(reader *r, size_t number) {
#ifdef PLACES
    r->noted = number == r->index;
#else
    (void)r, (void)number;
#endif
}

/* Whether an item of a tag begins here. */
static bool begins(const reader *r, uint8_t tag) { return r->at < r->end && r->bytes[r->at] == tag; }

/* Reads a tag and a length, and goes to the content: 1, 2, 3. */
static bool tag_and_length(reader *r, uint8_t tag, item *x) {
    const uint8_t *p = r->bytes + r->at;
    size_t left = r->end - r->at;
    if (left == 0) return refuse(r, 1, r->at);
    if (p[0] != tag) return refuse(r, 2, r->at);
    if (left < 2) return refuse(r, 3, r->at);
    x->tag = r->at;
    if (p[1] < 0x80) {
        x->length = p[1];
        r->at += 2;
    } else if (p[1] == 0x81) {
        if (left < 3 || p[2] < 0x80) return refuse(r, 3, r->at);
        x->length = p[2];
        r->at += 3;
    } else if (p[1] == 0x82) {
        if (left < 4 || p[2] == 0) return refuse(r, 3, r->at);
        x->length = (size_t)p[2] << 8 | p[3];
        r->at += 4;
    } else {
        return refuse(r, 3, r->at);
    }
    x->start = r->at;
    return true;
}

/* Holds an item to the end of its encloser: 4. */
static bool fits(reader *r, const item *x) { return x->length <= r->end - r->at || refuse(r, 4, x->tag); }

/* Reads the head of an item that stands in another: 1, 2, 3, 4. */
static bool head(reader *r, uint8_t tag, item *x) { return tag_and_length(r, tag, x) && fits(r, x); }

/* Reads a primitive item and goes past it; its content is not looked at. */
static bool primitive(reader *r, uint8_t tag, item *x) {
    if (!head(r, tag, x)) return false;
    r->at += x->length;
    return true;
}

/* Goes into an item that holds others; the encloser's end is kept for leave. */
static bool enter(reader *r, uint8_t tag, item *x, size_t *outer) {
    if (!head(r, tag, x)) return false;
    *outer = r->end;
    r->end = x->start + x->length;
    return true;
}

/* Goes out of an item that holds others: 5 if bytes are left in it. */
static bool leave(reader *r, size_t outer) {
    if (r->at != r->end) return refuse(r, 5, r->at);
    r->end = outer;
    return true;
}

/* Notes an item that holds others, with its tag and length. */
static void note_whole(reader *r, unsigned field, const item *x) { note(r, field, x->tag, x->start + x->length - x->tag, 0); }

/* Reads an integer of 1 to 8 bytes in its shortest form: 6. */
static bool number(reader *r, item *x, int64_t *value) {
    if (!primitive(r, INTEGER, x)) return false;
    const uint8_t *p = r->bytes + x->start;
    if (x->length == 0 || x->length > 8) return refuse(r, 6, x->tag);
    if (x->length > 1 && ((p[0] == 0x00 && p[1] < 0x80) || (p[0] == 0xFF && p[1] >= 0x80))) return refuse(r, 6, x->tag);
    uint64_t n = p[0] < 0x80 ? 0 : UINT64_MAX;
    for (size_t i = 0; i < x->length; i++) n = n << 8 | p[i];
    *value = (int64_t)n;
    return true;
}

/* Reads an integer between two bounds: 7. */
static bool number_between(reader *r, item *x, int64_t lowest, int64_t highest, int64_t *value) {
    if (!number(r, x, value)) return false;
    if (*value < lowest || *value > highest) return refuse(r, 7, x->tag);
    return true;
}

/* Reads the version, 4. */
static bool version(reader *r) {
    item x;
    int64_t value;
    return number_between(r, &x, 4, 4, &value);
}

/* Reads the seal type, any number. */
static bool seal_type(reader *r) {
    item x;
    int64_t value;
    if (!number(r, &x, &value)) return false;
    note(r, ENNAVIZHIL_SEAL_TYPE, x.start, x.length, 0);
    return true;
}

/* Reads the list kind, 1 or 2. */
static bool list_kind(reader *r, int64_t *kind) {
    item x;
    if (!number_between(r, &x, 1, 2, kind)) return false;
    note(r, ENNAVIZHIL_LIST_KIND, x.start, x.length, 0);
    return true;
}

/* Reads a width or a height. */
static bool millimetres(reader *r, unsigned field) {
    item x;
    int64_t value;
    if (!number_between(r, &x, 1, 65535, &value)) return false;
    note(r, field, x.start, x.length, 0);
    return true;
}

/* How many bytes at the start are below 80. */
static size_t ascii(const uint8_t *p, size_t length) {
    size_t i = 0;
#ifdef WORDS
    uint64_t word;
    while (length - i >= sizeof word) {
        memcpy(&word, p + i, sizeof word);
        if ((word & UINT64_C(0x8080808080808080)) != 0) break;
        i += sizeof word;
    }
#endif
    while (i < length && p[i] < 0x80) i++;
    return i;
}

/* Whether a byte is one that follows in UTF-8. */
static bool follows(uint8_t b) { return (b & 0xC0) == 0x80; }

/* How many bytes the character of UTF-8 has that begins with a byte from 80 up, 0 if there is none. */
static size_t character(const uint8_t *p, size_t left) {
    if (p[0] < 0xC2) return 0;
    if (p[0] < 0xE0) return left >= 2 && follows(p[1]) ? 2 : 0;
    if (p[0] < 0xF0) {
        if (left < 3 || !follows(p[1]) || !follows(p[2])) return 0;
        if (p[0] == 0xE0 && p[1] < 0xA0) return 0;
        if (p[0] == 0xED && p[1] > 0x9F) return 0;
        return 3;
    }
    if (p[0] > 0xF4) return 0;
    if (left < 4 || !follows(p[1]) || !follows(p[2]) || !follows(p[3])) return 0;
    if (p[0] == 0xF0 && p[1] < 0x90) return 0;
    if (p[0] == 0xF4 && p[1] > 0x8F) return 0;
    return 4;
}

/* Whether bytes are UTF-8. */
static bool is_utf8(const uint8_t *p, size_t length) {
    size_t i = 0;
    while (i < length) {
        if (p[i] < 0x80) {
            i += ascii(p + i, length - i);
        } else {
            size_t bytes = character(p + i, length - i);
            if (bytes == 0) return false;
            i += bytes;
        }
    }
    return true;
}

/* Whether a byte is in the alphabet of PrintableString. */
static bool is_printable(uint8_t b) {
    if ((b >= 'a' && b <= 'z') || (b >= 'A' && b <= 'Z') || (b >= '0' && b <= '9')) return true;
    switch (b) {
    case ' ':
    case '\'':
    case '(':
    case ')':
    case '+':
    case ',':
    case '-':
    case '.':
    case '/':
    case ':':
    case '=':
    case '?':
        return true;
    default:
        return false;
    }
}

/* Whether all bytes are in the alphabet of PrintableString. */
static bool is_all_printable(const uint8_t *p, size_t length) {
    for (size_t i = 0; i < length; i++)
        if (!is_printable(p[i])) return false;
    return true;
}

/* Reads an IA5String: 14, 9. */
static bool ia5_item(reader *r, item *x, int empty) {
    if (!primitive(r, IA5_STRING, x)) return false;
    if (x->length == 0 && empty == NOT_EMPTY) return refuse(r, 14, x->tag);
    if (ascii(r->bytes + x->start, x->length) != x->length) return refuse(r, 9, x->tag);
    return true;
}

/* Reads an IA5String of a field. */
static bool ia5(reader *r, unsigned field, int empty) {
    item x;
    if (!ia5_item(r, &x, empty)) return false;
    note(r, field, x.start, x.length, 0);
    return true;
}

/* Reads the header's name, "ES": 14, 9, 8. */
static bool header_name(reader *r) {
    item x;
    if (!ia5_item(r, &x, NOT_EMPTY)) return false;
    const uint8_t *p = r->bytes + x.start;
    if (x.length != 2 || p[0] != 'E' || p[1] != 'S') return refuse(r, 8, x.tag);
    return true;
}

/* Reads the seal's name, which may be empty: 9. */
static bool seal_name(reader *r) {
    item x;
    if (!primitive(r, UTF8_STRING, &x)) return false;
    if (!is_utf8(r->bytes + x.start, x.length)) return refuse(r, 9, x.tag);
    note(r, ENNAVIZHIL_SEAL_NAME, x.start, x.length, 0);
    return true;
}

/* Reads the type of a listed digest, which may be empty: 9. */
static bool listed_type(reader *r) {
    item x;
    if (!primitive(r, PRINTABLE_STRING, &x)) return false;
    if (!is_all_printable(r->bytes + x.start, x.length)) return refuse(r, 9, x.tag);
    note(r, ENNAVIZHIL_LISTED_TYPE, x.start, x.length, 0);
    return true;
}

/* Reads an OCTET STRING: 14. */
static bool octets(reader *r, unsigned field, int empty) {
    item x;
    if (!primitive(r, OCTET_STRING, &x)) return false;
    if (x.length == 0 && empty == NOT_EMPTY) return refuse(r, 14, x.tag);
    note(r, field, x.start, x.length, 0);
    return true;
}

/* Reads a BIT STRING of whole bytes: 12, 14. */
static bool bits(reader *r, unsigned field) {
    item x;
    if (!primitive(r, BIT_STRING, &x)) return false;
    if (x.length == 0 || r->bytes[x.start] != 0) return refuse(r, 12, x.tag);
    if (x.length == 1) return refuse(r, 14, x.tag);
    note(r, field, x.start + 1, x.length - 1, 0);
    return true;
}

/* Whether bytes are an identifier. */
static bool is_identifier(const uint8_t *p, size_t length) {
    if (length == 0 || length > MOST_IDENTIFIER_BYTES) return false;
    bool new_part = true;
    for (size_t i = 0; i < length; i++) {
        if (new_part && p[i] == 0x80) return false;
        new_part = p[i] < 0x80;
    }
    return new_part;
}

/* Reads an identifier: 11. */
static bool identifier(reader *r, unsigned field) {
    item x;
    if (!primitive(r, IDENTIFIER, &x)) return false;
    if (!is_identifier(r->bytes + x.start, x.length)) return refuse(r, 11, x.tag);
    note(r, field, x.start, x.length, 0);
    return true;
}

/* The number of two digits. */
static unsigned two(const uint8_t *p) { return (unsigned)(p[0] - '0') * 10 + (unsigned)(p[1] - '0'); }

/* Whether bytes are fourteen digits and Z, and a real date and time. */
static bool is_time(const uint8_t *p, size_t length) {
    static const uint8_t days[] = {31, 28, 31, 30, 31, 30, 31, 31, 30, 31, 30, 31};
    if (length != 15 || p[14] != 'Z') return false;
    for (size_t i = 0; i < 14; i++)
        if (p[i] < '0' || p[i] > '9') return false;
    unsigned year = two(p) * 100 + two(p + 2), month = two(p + 4), day = two(p + 6);
    if (month < 1 || month > 12 || day < 1) return false;
    unsigned last = days[month - 1];
    if (month == 2 && year % 4 == 0 && (year % 100 != 0 || year % 400 == 0)) last = 29;
    return day <= last && two(p + 8) <= 23 && two(p + 10) <= 59 && two(p + 12) <= 59;
}

/* Reads a time: 10. */
static bool time(reader *r, unsigned field) {
    item x;
    if (!primitive(r, TIME, &x)) return false;
    if (!is_time(r->bytes + x.start, x.length)) return refuse(r, 10, x.tag);
    note(r, field, x.start, x.length, 0);
    return true;
}

/* Reads critical, where it is there: 13. */
static bool critical(reader *r, unsigned field) {
    item x;
    if (!begins(r, BOOLEAN)) return true;
    if (!primitive(r, BOOLEAN, &x)) return false;
    if (x.length != 1 || r->bytes[x.start] != 0xFF) return refuse(r, 13, x.tag);
    note(r, field, x.start, x.length, 0);
    return true;
}

/* Reads a certificate of a list. */
static bool certificate(reader *r) { return octets(r, ENNAVIZHIL_LISTED_CERTIFICATE, NOT_EMPTY); }

/* Reads a digest of a list. */
static bool digest(reader *r) {
    item x;
    size_t outer;
    if (!enter(r, SEQUENCE, &x, &outer)) return false;
    note_whole(r, ENNAVIZHIL_LISTED_ENTRY, &x);
    return listed_type(r) && octets(r, ENNAVIZHIL_LISTED_DIGEST, NOT_EMPTY) && leave(r, outer);
}

/* Reads a custom item, whose fields have the numbers from one on. */
static bool custom_item(reader *r, unsigned field) {
    item x;
    size_t outer;
    if (!enter(r, SEQUENCE, &x, &outer)) return false;
    note_whole(r, field, &x);
    return identifier(r, field + 1) && critical(r, field + 2) && octets(r, field + 3, MAY_BE_EMPTY) && leave(r, outer);
}

/* Reads a custom item of the seal. */
static bool seal_custom_item(reader *r) { return custom_item(r, ENNAVIZHIL_SEAL_CUSTOM_ITEM); }

/* Reads a custom item of the signed part. */
static bool signed_custom_item(reader *r) { return custom_item(r, ENNAVIZHIL_SIGNED_CUSTOM_ITEM); }

/* Reads a list of at most 64 items, one of certificates or digests not empty: 15, 16. */
static bool list(reader *r, unsigned field, bool (*one)(reader *), int empty) {
    item x;
    size_t outer, items = 0;
    if (!enter(r, SEQUENCE, &x, &outer)) return false;
    if (x.length == 0 && empty == NOT_EMPTY) return refuse(r, 15, x.tag);
    while (r->at < r->end) {
        if (items == MOST_ITEMS) return refuse(r, 16, r->at);
        now_at(r, items);
        if (!one(r)) return false;
        items++;
    }
    now_at(r, 0);
    r->end = outer;
    note(r, field, x.tag, x.start + x.length - x.tag, items);
    return true;
}

/* Reads the certificate list, of certificates or of digests as its kind says. */
static bool certificate_list(reader *r, int64_t kind) { return list(r, ENNAVIZHIL_CERTIFICATE_LIST, kind == 1 ? certificate : digest, NOT_EMPTY); }

/* Reads the header. */
static bool header(reader *r) {
    item x;
    size_t outer;
    if (!enter(r, SEQUENCE, &x, &outer)) return false;
    note_whole(r, ENNAVIZHIL_HEADER, &x);
    return header_name(r) && version(r) && ia5(r, ENNAVIZHIL_VENDOR, MAY_BE_EMPTY) && leave(r, outer);
}

/* Reads the property. */
static bool property(reader *r) {
    item x;
    size_t outer;
    int64_t kind;
    if (!enter(r, SEQUENCE, &x, &outer)) return false;
    note_whole(r, ENNAVIZHIL_PROPERTY, &x);
    return seal_type(r) && seal_name(r) && list_kind(r, &kind) && certificate_list(r, kind) && time(r, ENNAVIZHIL_CREATED) && time(r, ENNAVIZHIL_START) &&
           time(r, ENNAVIZHIL_END) && leave(r, outer);
}

/* Reads the picture. */
static bool picture(reader *r) {
    item x;
    size_t outer;
    if (!enter(r, SEQUENCE, &x, &outer)) return false;
    note_whole(r, ENNAVIZHIL_PICTURE, &x);
    return ia5(r, ENNAVIZHIL_PICTURE_TYPE, NOT_EMPTY) && octets(r, ENNAVIZHIL_PICTURE_DATA, NOT_EMPTY) && millimetres(r, ENNAVIZHIL_WIDTH) &&
           millimetres(r, ENNAVIZHIL_HEIGHT) && leave(r, outer);
}

/* Reads the seal's custom data, where it is there. */
static bool seal_custom_data(reader *r) {
    return !begins(r, SEQUENCE) || list(r, ENNAVIZHIL_SEAL_CUSTOM_DATA, seal_custom_item, MAY_BE_EMPTY);
}

/* Reads seal information. */
static bool seal_information(reader *r) {
    item x;
    size_t outer;
    if (!enter(r, SEQUENCE, &x, &outer)) return false;
    note_whole(r, ENNAVIZHIL_SEAL_INFORMATION, &x);
    return header(r) && ia5(r, ENNAVIZHIL_SEAL_ID, NOT_EMPTY) && property(r) && picture(r) && seal_custom_data(r) && leave(r, outer);
}

/* Reads the seal. */
static bool seal(reader *r) {
    item x;
    size_t outer;
    if (!enter(r, SEQUENCE, &x, &outer)) return false;
    note_whole(r, ENNAVIZHIL_WHOLE_SEAL, &x);
    return seal_information(r) && octets(r, ENNAVIZHIL_MAKER_CERTIFICATE, NOT_EMPTY) && identifier(r, ENNAVIZHIL_SEAL_ALGORITHM) &&
           bits(r, ENNAVIZHIL_SEAL_SIGNED_VALUE) && leave(r, outer);
}

/* Reads the signed part's custom data, where it is there. */
static bool signed_custom_data(reader *r) {
    item x;
    size_t outer;
    if (!begins(r, TAGGED)) return true;
    return enter(r, TAGGED, &x, &outer) && list(r, ENNAVIZHIL_SIGNED_CUSTOM_DATA, signed_custom_item, MAY_BE_EMPTY) && leave(r, outer);
}

/* Reads the signed part. */
static bool signed_part(reader *r) {
    item x;
    size_t outer;
    if (!enter(r, SEQUENCE, &x, &outer)) return false;
    note_whole(r, ENNAVIZHIL_SIGNED_PART, &x);
    return version(r) && seal(r) && time(r, ENNAVIZHIL_SIGNING_TIME) && bits(r, ENNAVIZHIL_ORIGINAL_DIGEST) && ia5(r, ENNAVIZHIL_PROPERTY_TEXT, NOT_EMPTY) &&
           signed_custom_data(r) && leave(r, outer);
}

/* Reads the stamp, where it is there. */
static bool stamp(reader *r) {
    item x;
    size_t outer;
    if (!begins(r, TAGGED)) return true;
    return enter(r, TAGGED, &x, &outer) && bits(r, ENNAVIZHIL_STAMP) && leave(r, outer);
}

/* Reads the head of the outermost item and goes into it: 1, 2, 3, 17, 4. */
static bool enter_record(reader *r, size_t *outer) {
    item x;
    if (!tag_and_length(r, SEQUENCE, &x)) return false;
    if (x.start + x.length > LARGEST_RECORD) return refuse(r, 17, 0);
    if (!fits(r, &x)) return false;
    *outer = r->end;
    r->end = x.start + x.length;
    return true;
}

/* Reads a signature record that is the whole input. */
static bool signature_record(reader *r) {
    size_t outer;
    return enter_record(r, &outer) && signed_part(r) && octets(r, ENNAVIZHIL_SIGNER_CERTIFICATE, NOT_EMPTY) && identifier(r, ENNAVIZHIL_SIGNATURE_ALGORITHM) &&
           bits(r, ENNAVIZHIL_SIGNATURE_VALUE) && stamp(r) && leave(r, outer) && leave(r, outer);
}

#ifdef PLACES
uint64_t hand_places(const uint8_t *record, size_t record_length, size_t index, size_t *table, size_t table_length) {
    size_t places[ENNAVIZHIL_TABLE] = {0};
    reader r = {.bytes = record, .end = record_length, .table = places, .index = index, .noted = index == 0};
    places[ENNAVIZHIL_TABLE - 1] = index;
    if (!signature_record(&r)) return r.refusal;
    if (table_length < ENNAVIZHIL_TABLE) return (uint64_t)ENNAVIZHIL_TABLE << 8 | 20;
    memcpy(table, places, sizeof places);
    return (uint64_t)record_length << 8;
}
#else
#ifdef WORDS
#define CHECK hand_check_words
#else
#define CHECK hand_check
#endif
uint64_t CHECK(const uint8_t *record, size_t record_length) {
    reader r = {.bytes = record, .end = record_length};
    if (!signature_record(&r)) return r.refusal;
    return (uint64_t)record_length << 8;
}
#endif
