/* Semuryeon: the proved message layer of a toll tag and its lane reader.
 *
 * Link crates/exports/out/libexports.a (`rt lib` in crates/exports; x86-64). examples/c/join.c is a whole program.
 *
 * Every function takes any numbers and any octets and ends without a fault. A pointer with its length must be a real one (with length 0 it is not
 * followed), and what is lent must not overlap. Nothing is allocated, and nothing is kept between two calls but what is lent.
 *
 * An answer is one number: take it apart with the functions at the end of this file. A refusal (docs/FAULTS.md) changes nothing that was lent; refusals
 * 13 to 21 have the position in the message as first number. Output is written from its front, and every other octet of it keeps its value.
 *
 * States live in words that the caller lends and does not look into. All zero is the first state: an empty table, a sleeping link. Words of another
 * length are a state that is not sound: 2 for a table, 23 for a link, 26 for elements and rows.
 */
#ifndef SEMURYEON_H
#define SEMURYEON_H

#include <stddef.h>
#include <stdint.h>

#ifdef __cplusplus
extern "C" {
#endif

#define SEMURYEON_TABLE_WORDS 41
#define SEMURYEON_STORE_OCTETS 4096
#define SEMURYEON_OUTPUT_OCTETS 512
#define SEMURYEON_LINK_WORDS 6
#define SEMURYEON_ELEMENT_WORDS 4 /* eid, AID, start and length of the mark within the marks' octets */
#define SEMURYEON_ROW_WORDS 5     /* id, area (0 factory, 1 writable), start, length, protected (0: open) */
#define SEMURYEON_PART_WORDS 3    /* area, start, length */
#define SEMURYEON_TEXT_OCTETS 128

/* Refusals, as docs/FAULTS.md tells them. */
enum {
    SEMURYEON_STORE_OR_OUTPUT_LENGTH = 1,
    SEMURYEON_TABLE_NOT_SOUND = 2,
    SEMURYEON_LID_OUT_OF_RANGE = 3,
    SEMURYEON_LSDU_LENGTH = 4,
    SEMURYEON_HEADER_NOT_VALID = 5,
    SEMURYEON_NUMBER_RESERVED = 6,
    SEMURYEON_NO_PAYLOAD = 7,
    SEMURYEON_NOT_OPEN = 8,
    SEMURYEON_NO_FREE_SLOT = 9,
    SEMURYEON_COUNTER_NOT_EXPECTED = 10,
    SEMURYEON_COUNTER_EXHAUSTED = 11,
    SEMURYEON_MESSAGE_TOO_LONG = 12,
    SEMURYEON_CUT_SHORT = 13,
    SEMURYEON_OCTETS_LEFT = 14,
    SEMURYEON_CHOICE_UNKNOWN = 15,
    SEMURYEON_EXTENSION_BIT = 16,
    SEMURYEON_CONTAINER_KIND = 17,
    SEMURYEON_COUNT_TOO_LARGE = 18,
    SEMURYEON_TOO_DEEP = 19,
    SEMURYEON_APDU_TOO_LONG = 21,
    SEMURYEON_OUTPUT_TOO_SMALL = 22,
    SEMURYEON_RECORD_OUT_OF_RANGE = 23,
    SEMURYEON_NOT_SERVED = 24,
    SEMURYEON_LINK_NOT_READY = 25,
    SEMURYEON_LIST_NOT_SOUND = 26
};

/* The fragment header: PDU number is the kind, counter the first number; header_size and header_last take the second apart. Refused 5. */
uint64_t semuryeon_header_read(const uint8_t *octets, size_t length);
/* Writes a header to the front of the output: the first number is how many octets it has. last: 0 or not. Refused 23, 22. */
uint64_t semuryeon_header_write(uint32_t last, uint32_t number, uint32_t counter, uint8_t *output, size_t room);

/* One fragment. Kind 1: held, kind 2: whole, delivered to the front of the output; first: octets held or delivered; second: octets dropped. Refused 1 to 12. */
uint64_t semuryeon_fragment(uint32_t lid, uint32_t tick, const uint8_t *lsdu, size_t length, uint32_t *table, size_t table_words, uint8_t *store,
                            size_t store_octets, uint8_t *output, size_t room);
/* Frees each slot that is at least `limit` ticks old, or each of one LID; first: octets dropped. Refused 2; 2, 3. */
uint64_t semuryeon_expire(uint32_t tick, uint32_t limit, uint32_t *table, size_t table_words);
uint64_t semuryeon_release(uint32_t lid, uint32_t *table, size_t table_words);

/* Whether octets are a message: the kind is its choice, 0 to 9. Refused 13 to 19 and 21; the first number is then the position. */
uint64_t semuryeon_check(const uint8_t *octets, size_t length);
/* A string of a message, copied to the front of the output: kind 1, first: its octets; kind 0: no such string. Fields: 0 credentials, 1 parameter, 2 to 33
 * attribute rows in the order of the message, 34 to 65 parameters of its application entries. Refused as check; then 22. */
uint64_t semuryeon_string(const uint8_t *octets, size_t length, uint32_t field, uint8_t *output, size_t room);
/* Reads a message and writes it again; first: its octets. Refused as check; then 22. */
uint64_t semuryeon_rewrite(const uint8_t *octets, size_t length, uint8_t *output, size_t room);

/* The tag hears a BST. Kind 0: silent, kind 1: a VST at the front of the output, first: its octets. Refused as check; 23 for another message; 1, 3, 26, 23. */
uint64_t semuryeon_link_bst(const uint8_t *octets, size_t length, uint32_t tick, uint32_t lid, uint32_t *link, size_t link_words,
                            const uint32_t *elements, size_t element_words, const uint8_t *marks, size_t mark_octets, uint32_t equipment_class,
                            uint32_t maker, uint32_t status, uint8_t *output, size_t room);
/* Release of the link's LID; a passing tick. Refused 3, 23, 25; 23. */
uint64_t semuryeon_link_release(uint32_t lid, uint32_t *link, size_t link_words);
uint64_t semuryeon_link_tick(uint32_t tick, uint32_t *link, size_t link_words);

/* Where an attribute lies, in areas of so many octets. Kind 1: known, its area, start and length in the first three words of the part; kind 0: unknown, and
 * they are 0. Refused 26, 22. */
uint64_t semuryeon_lookup(uint32_t id, const uint32_t *rows, size_t row_words, size_t factory_octets, size_t writable_octets, uint32_t *part,
                          size_t part_words);
/* Answers a request. Kind 0: no reply, kind 1: a reply at the front of the output, first: its octets. Refused 1, 26, as check (first: the position), 24. */
uint64_t semuryeon_request(const uint8_t *octets, size_t length, uint32_t eid, const uint8_t *credentials, size_t credential_octets,
                           const uint32_t *rows, size_t row_words, const uint8_t *factory, size_t factory_octets, uint8_t *writable,
                           size_t writable_octets, uint8_t *output, size_t room);

/* One line of a recording through the joining, and its line of output (with a line feed) at the front of the text, of at least 128 octets; first: its
 * octets. Refused 22. What a fragment was refused with stands in the line, and then table, store and output stay as they were. */
uint64_t semuryeon_bench_line(uint64_t number, const uint8_t *line, size_t length, uint32_t *table, size_t table_words, uint8_t *store,
                              size_t store_octets, uint8_t *output, size_t room, uint8_t *text, size_t text_octets);

/* An answer taken apart: the refusal's number (0: none), the kind, and two numbers. */
static inline uint32_t semuryeon_refusal(uint64_t answer) { return (uint32_t)(answer & 255); }
static inline uint32_t semuryeon_kind(uint64_t answer) { return (uint32_t)(answer >> 8 & 255); }
static inline uint32_t semuryeon_first(uint64_t answer) { return (uint32_t)(answer >> 16 & 16777215); }
static inline uint32_t semuryeon_second(uint64_t answer) { return (uint32_t)(answer >> 40); }
static inline uint32_t semuryeon_header_size(uint64_t answer) { return semuryeon_second(answer) & 3; }
static inline uint32_t semuryeon_header_last(uint64_t answer) { return semuryeon_second(answer) >> 2; }

#ifdef __cplusplus
}
#endif

#endif
