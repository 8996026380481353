/* The link, lookup and requests: a reply is a message of its kind. */
#ifndef TAG_CALLS_H
#define TAG_CALLS_H

#include "message_calls.h"

static uint32_t *lend_link(void) { return lend(&link_block, state.link, 4 * state.link_words, behind_first); }

static void keep_link(enum call call, uint64_t answer, uint32_t allowed)
{
    see(call, answer);
    demand_refusal(answer, allowed);
    demand_kept(&link_block, semuryeon_refusal(answer) == 0 ? link_block.length : 0);
    memcpy(state.link, link_block.octets, link_block.length);
}

/* The reply at the front of the output is a message of one of these kinds. */
static void demand_reply(uint64_t answer, uint32_t kinds)
{
    demand_kept(&output, semuryeon_kind(answer) == 1 ? semuryeon_first(answer) : 0);
    if (semuryeon_kind(answer) != 1)
        return;
    uint64_t reply = semuryeon_check(output.octets, semuryeon_first(answer));
    DEMAND(semuryeon_refusal(reply) == 0 && (kinds >> semuryeon_kind(reply) & 1) == 1);
}

static void bst(struct input *input)
{
    uint32_t tick = take(input, 4), lid = take(input, 4), class = take(input, 2), maker = take(input, 3), status = take(input, 3);
    size_t room = take_room(input);
    const uint8_t *message = lend_message(input), *lent_marks = lend(&marks, state.marks, state.mark_octets, behind_first);
    const uint32_t *lent_elements = lend(&elements, state.elements, 4 * state.element_words, behind_first);
    uint64_t answer = semuryeon_link_bst(message, octets.length, tick, lid, lend_link(), state.link_words, lent_elements, state.element_words, lent_marks,
                                         state.mark_octets, class, maker, status, lend_output(room), room);
    keep_link(BST, answer, READING | BIT(1) | BIT(3) | BIT(23) | BIT(26));
    demand_position(answer, octets.length);
    demand_kept(&octets, 0);
    demand_kept(&elements, 0);
    demand_kept(&marks, 0);
    demand_reply(answer, BIT(9));
    if (semuryeon_kind(answer) == 1)
        DEMAND(state.link[0] == 2 && state.link[3] == lid && state.link[5] == tick);
}

static void link_release(struct input *input)
{
    uint32_t lid = take(input, 4);
    keep_link(LINK_RELEASE, semuryeon_link_release(lid, lend_link(), state.link_words), BIT(3) | BIT(23) | BIT(25));
}

static void link_tick(struct input *input)
{
    uint32_t tick = take(input, 4);
    keep_link(LINK_TICK, semuryeon_link_tick(tick, lend_link(), state.link_words), BIT(23));
}

static uint32_t *lend_rows(void) { return lend(&rows, state.rows, 4 * state.row_words, behind_first); }

static void lookup(struct input *input)
{
    uint32_t id = take(input, 4);
    size_t words = take(input, 1) % 6, factory_octets = state.factory_octets, writable_octets = state.writable_octets;
    uint32_t *lent_part = lend(&part, noise, 4 * words, behind_first);
    uint64_t answer = semuryeon_lookup(id, lend_rows(), state.row_words, factory_octets, writable_octets, lent_part, words);
    see(LOOKUP, answer);
    demand_refusal(answer, BIT(22) | BIT(26));
    demand_kept(&rows, 0);
    demand_kept(&part, semuryeon_refusal(answer) == 0 ? 12 : 0);
    if (semuryeon_refusal(answer) != 0)
        return;
    uint64_t end = (uint64_t)lent_part[1] + lent_part[2];
    DEMAND(lent_part[0] <= 1 && lent_part[2] <= 127 && end <= (lent_part[0] == 0 ? factory_octets : writable_octets));
    DEMAND(semuryeon_kind(answer) == 1 || (lent_part[0] == 0 && end == 0));
}

static void request(struct input *input)
{
    uint32_t eid = take(input, 4);
    size_t room = take_room(input);
    const uint8_t *message = lend_message(input), *lent_credentials = lend(&credentials, state.credentials, state.credential_octets, behind_first);
    const uint8_t *lent_factory = lend(&factory, state.factory, state.factory_octets, behind_first);
    uint8_t *lent_writable = lend(&writable, state.writable, state.writable_octets, behind_first);
    uint64_t answer = semuryeon_request(message, octets.length, eid, lent_credentials, state.credential_octets, lend_rows(), state.row_words, lent_factory,
                                        state.factory_octets, lent_writable, state.writable_octets, lend_output(room), room);
    see(REQUEST, answer);
    demand_refusal(answer, READING | BIT(1) | BIT(24) | BIT(26));
    demand_position(answer, octets.length);
    demand_kept(&octets, 0);
    demand_kept(&credentials, 0);
    demand_kept(&factory, 0);
    demand_kept(&rows, 0);
    demand_reply(answer, BIT(1) | BIT(5) | BIT(7));
    int is_set = octets.length > 0 && message[0] >> 4 == 4;
    demand_kept(&writable, semuryeon_refusal(answer) == 0 && is_set ? writable.length : 0);
    memcpy(state.writable, writable.octets, writable.length);
}

#endif
