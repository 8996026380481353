/* Headers, fragments, expiry, release and lines of a recording. Octets accepted are those delivered, dropped and held. */
#ifndef JOINING_CALLS_H
#define JOINING_CALLS_H

#include "state.h"

static void header_read(struct input *input)
{
    const uint8_t *at;
    size_t length = take_octets(input, 1, 255, &at);
    uint64_t answer = semuryeon_header_read(lend(&octets, at, length, behind_first), length);
    see(HEADER_READ, answer);
    demand_refusal(answer, BIT(5));
    demand_kept(&octets, 0);
    if (semuryeon_refusal(answer) != 0)
        return;
    size_t size = semuryeon_header_size(answer);
    DEMAND(1 <= size && size <= 3 && size <= length && semuryeon_header_last(answer) <= 1);
    uint8_t *again = lend_output(size);
    DEMAND(semuryeon_first(semuryeon_header_write(semuryeon_header_last(answer), semuryeon_kind(answer), semuryeon_first(answer), again, size)) == size);
    DEMAND(memcmp(again, octets.octets, size) == 0);
}

static void header_write(struct input *input)
{
    uint32_t last = take(input, 1), number = take(input, 4), counter = take(input, 4);
    size_t room = take(input, 1) % 8;
    uint64_t answer = semuryeon_header_write(last, number, counter, lend_output(room), room);
    see(HEADER_WRITE, answer);
    demand_refusal(answer, BIT(22) | BIT(23));
    DEMAND((semuryeon_refusal(answer) == 23) == (number > 15 || counter > 65535));
    demand_kept(&output, semuryeon_refusal(answer) == 0 ? semuryeon_first(answer) : 0);
    if (semuryeon_refusal(answer) != 0)
        return;
    uint64_t read = semuryeon_header_read(output.octets, semuryeon_first(answer));
    DEMAND(semuryeon_refusal(read) == 0 && semuryeon_kind(read) == number && semuryeon_first(read) == counter);
    DEMAND(semuryeon_header_last(read) == (last != 0) && semuryeon_header_size(read) == semuryeon_first(answer));
}

static uint32_t *lend_table(void) { return lend(&table, state.table, 4 * state.table_words, behind_first); }

static uint64_t held(void)
{
    uint64_t sum = 0;
    for (int slot = 0; slot < 8; slot++)
        sum += state.table[4 + 5 * slot];
    return sum;
}

/* Takes the table over from an accepted call; nothing is lost. */
static void keep_table(uint64_t answer)
{
    if (semuryeon_refusal(answer) != 0)
        demand_kept(&table, 0);
    demand_kept(&table, table.length);
    memcpy(state.table, table.octets, table.length);
    DEMAND(state.tampered || semuryeon_refusal(answer) != 2);
    DEMAND(state.tampered || state.accepted == state.delivered + state.dropped + held());
}

/* What an accepted fragment call brought; its header is read once more. */
static void account(uint64_t answer, size_t length)
{
    if (semuryeon_refusal(answer) != 0)
        return;
    DEMAND(semuryeon_first(answer) <= 512 && semuryeon_second(answer) <= 512 && (semuryeon_kind(answer) == 1 || semuryeon_kind(answer) == 2));
    state.accepted += length - semuryeon_header_size(semuryeon_header_read(octets.octets, length));
    state.delivered += semuryeon_kind(answer) == 2 ? semuryeon_first(answer) : 0;
    state.dropped += semuryeon_second(answer);
}

static void fragment(struct input *input)
{
    const uint8_t *at;
    uint32_t lid = take(input, 4), tick = take(input, 4), wrong_store = take(input, 1);
    size_t room = take_room(input), length = take_octets(input, 1, 255, &at);
    size_t store_octets = wrong_store == 0 ? sizeof state.store : wrong_store * 17;
    if (store_octets > sizeof state.store)
        store_octets = sizeof state.store;
    const uint8_t *lsdu = lend(&octets, at, length, behind_first);
    uint8_t *lent_store = lend(&store, state.store, store_octets, behind_first), *lent_output = lend_output(room);
    uint64_t answer = semuryeon_fragment(lid, tick, lsdu, length, lend_table(), state.table_words, lent_store, store_octets, lent_output, room);
    see(FRAGMENT, answer);
    demand_refusal(answer, 0x17FE);
    demand_kept(&octets, 0);
    demand_kept(&output, semuryeon_kind(answer) == 2 ? semuryeon_first(answer) : 0);
    demand_kept(&store, semuryeon_kind(answer) == 1 ? store.length : 0);
    account(answer, length);
    keep_table(answer);
    if (store_octets == sizeof state.store)
        memcpy(state.store, store.octets, store_octets);
}

static void swept(enum call call, uint64_t answer, uint32_t allowed)
{
    see(call, answer);
    demand_refusal(answer, allowed);
    state.dropped += semuryeon_refusal(answer) == 0 ? semuryeon_first(answer) : 0;
    DEMAND(semuryeon_first(answer) <= 4096);
    keep_table(answer);
}

static void expire(struct input *input)
{
    uint32_t tick = take(input, 4), limit = take(input, 4);
    swept(EXPIRE, semuryeon_expire(tick, limit, lend_table(), state.table_words), BIT(2));
}

static void release(struct input *input)
{
    uint32_t lid = take(input, 4);
    swept(RELEASE, semuryeon_release(lid, lend_table(), state.table_words), BIT(2) | BIT(3));
}

static void line(struct input *input)
{
    uint64_t number = (uint64_t)take(input, 4) * take(input, 4);
    size_t text_octets = take(input, 1) == 0 ? SEMURYEON_TEXT_OCTETS : take(input, 1);
    const uint8_t *text_line = lend_message(input);
    uint8_t *lent_store = lend(&store, state.store, sizeof state.store, behind_first), *text = lend(&part, noise, text_octets, behind_first);
    uint8_t *lent_output = lend_output(SEMURYEON_OUTPUT_OCTETS);
    uint64_t answer = semuryeon_bench_line(number, text_line, octets.length, lend_table(), state.table_words, lent_store, sizeof state.store, lent_output,
                                           SEMURYEON_OUTPUT_OCTETS, text, text_octets);
    see(LINE, answer);
    DEMAND(semuryeon_refusal(answer) == (text_octets < SEMURYEON_TEXT_OCTETS ? 22 : 0));
    demand_kept(&octets, 0);
    demand_kept(&part, semuryeon_first(answer));
    if (semuryeon_refusal(answer) == 0) {
        char printed[32];
        int digits = snprintf(printed, sizeof printed, "%llu ", (unsigned long long)number);
        DEMAND(memcmp(text, printed, (size_t)digits) == 0 && text[semuryeon_first(answer) - 1] == '\n');
        state.tampered = 1; /* what the line brought is told in its text only */
    } else {
        demand_kept(&store, 0);
        demand_kept(&output, 0);
    }
    demand_kept(&table, semuryeon_refusal(answer) == 0 ? table.length : 0);
    memcpy(state.table, table.octets, table.length);
    memcpy(state.store, store.octets, store.length);
}

#endif
