/* What the calls of one input stand on, and what is demanded of every answer. */
#ifndef STATE_H
#define STATE_H

#include "lent.h"
#include "semuryeon.h"

enum call { HEADER_READ, HEADER_WRITE, FRAGMENT, EXPIRE, RELEASE, CHECK, STRING, REWRITE, BST, LINK_RELEASE, LINK_TICK, LOOKUP, REQUEST, LINE, SET_UP, CALLS };
enum { MOST_MESSAGE = 700, MOST_WORDS = 200, MOST_AREA = 400, POSITIONS = 64 };

/* What libFuzzer sees of the archive: each answer by call, refusal, kind and first number. */
__attribute__((section("__libfuzzer_extra_counters"))) static uint8_t seen[CALLS][27][POSITIONS];

/* The tag and the joining of one input. */
static struct {
    uint32_t table[MOST_WORDS], link[MOST_WORDS], rows[MOST_WORDS], elements[MOST_WORDS];
    size_t table_words, link_words, row_words, element_words;
    uint8_t store[SEMURYEON_STORE_OCTETS], marks[MOST_AREA], factory[MOST_AREA], writable[MOST_AREA], credentials[MOST_AREA];
    size_t mark_octets, factory_octets, writable_octets, credential_octets;
    uint64_t accepted, delivered, dropped;
    int tampered; /* words of the table were set from outside */
} state;

static struct lent octets, table, store, output, link_block, rows, elements, marks, credentials, factory, writable, part;
static int behind_first;

static const uint8_t noise[MOST_MESSAGE] = {0xEE, 1, 2, 3};

/* How often each refusal was given in the whole run; 0 is none. */
static uint64_t given[CALLS][27];

static void see(enum call call, uint64_t answer)
{
    DEMAND(semuryeon_refusal(answer) <= 26);
    given[call][semuryeon_refusal(answer)]++;
    seen[call][semuryeon_refusal(answer)][(semuryeon_kind(answer) * 16 + semuryeon_first(answer)) % POSITIONS] = 1;
}

__attribute__((destructor)) static void print_given(void)
{
    static const char *const names[SET_UP] = {"header_read", "header_write", "fragment",     "expire",    "release", "check",   "string",
                                              "rewrite",     "link_bst",     "link_release", "link_tick", "lookup",  "request", "bench_line"};
    uint64_t calls = 0;
    for (int call = 0; call < SET_UP; call++) {
        fprintf(stderr, "%s: %llu accepted; refused", names[call], (unsigned long long)given[call][0]);
        for (int refusal = 0; refusal < 27; refusal++) {
            calls += given[call][refusal];
            if (refusal > 0 && given[call][refusal] > 0)
                fprintf(stderr, " %d: %llu", refusal, (unsigned long long)given[call][refusal]);
        }
        fprintf(stderr, "\n");
    }
    fprintf(stderr, "calls: %llu\n", (unsigned long long)calls);
}

/* The refusals that a call gives, as bits. */
static void demand_refusal(uint64_t answer, uint32_t allowed)
{
    DEMAND(semuryeon_refusal(answer) == 0 || (allowed >> semuryeon_refusal(answer) & 1) == 1);
}

#define BIT(number) (1u << (number))
#define READING (BIT(13) | BIT(14) | BIT(15) | BIT(16) | BIT(17) | BIT(18) | BIT(19) | BIT(21))

static int is_reading(uint64_t answer) { return (READING >> semuryeon_refusal(answer) & 1) == 1; }

/* A room of 512 octets, or as many as the input says. */
static size_t take_room(struct input *input)
{
    uint32_t room = take(input, 2);
    return room == 0 ? SEMURYEON_OUTPUT_OCTETS : room % MOST_MESSAGE;
}

static uint8_t *lend_output(size_t room) { return lend(&output, noise, room, behind_first); }

static const uint8_t *lend_message(struct input *input)
{
    const uint8_t *at;
    size_t length = take_octets(input, 2, MOST_MESSAGE, &at);
    return lend(&octets, at, length, behind_first);
}

#endif
