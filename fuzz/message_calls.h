/* Check, string and rewrite: a message written again is the same. */
#ifndef MESSAGE_CALLS_H
#define MESSAGE_CALLS_H

#include "state.h"

/* A position of a refused message. */
static void demand_position(uint64_t answer, size_t length)
{
    uint32_t refusal = semuryeon_refusal(answer), position = semuryeon_first(answer);
    if (refusal == 21)
        DEMAND(position == 512 && length > 512);
    else if (is_reading(answer))
        DEMAND(position <= length && length <= 512 && (refusal != 13 || position == length));
}

/* The octets that are lent, read once more. */
static uint64_t checked(void) { return semuryeon_check(octets.octets, octets.length); }

static void check(struct input *input)
{
    const uint8_t *message = lend_message(input);
    uint64_t answer = checked();
    see(CHECK, answer);
    demand_refusal(answer, READING);
    demand_kept(&octets, 0);
    demand_position(answer, octets.length);
    DEMAND(semuryeon_refusal(answer) != 0 || (octets.length > 0 && semuryeon_kind(answer) == message[0] >> 4));
}

static void string(struct input *input)
{
    uint32_t field = take(input, 1);
    size_t room = take_room(input);
    const uint8_t *message = lend_message(input);
    uint64_t answer = semuryeon_string(message, octets.length, field, lend_output(room), room);
    see(STRING, answer);
    demand_refusal(answer, READING | BIT(22));
    demand_position(answer, octets.length);
    demand_kept(&octets, 0);
    demand_kept(&output, semuryeon_kind(answer) == 1 ? semuryeon_first(answer) : 0);
    DEMAND(is_reading(answer) == (semuryeon_refusal(checked()) != 0));
    if (semuryeon_kind(answer) == 1)
        DEMAND(semuryeon_first(answer) <= 127 && memmem(message, octets.length, output.octets, semuryeon_first(answer)) != NULL);
}

static void rewrite(struct input *input)
{
    size_t room = take_room(input);
    const uint8_t *message = lend_message(input);
    uint64_t answer = semuryeon_rewrite(message, octets.length, lend_output(room), room), before = checked();
    see(REWRITE, answer);
    demand_kept(&octets, 0);
    demand_kept(&output, semuryeon_refusal(answer) == 0 ? semuryeon_first(answer) : 0);
    if (semuryeon_refusal(before) != 0)
        DEMAND(answer == before);
    else if (room < octets.length)
        DEMAND(semuryeon_refusal(answer) == 22);
    else
        DEMAND(semuryeon_refusal(answer) == 0 && semuryeon_first(answer) == octets.length && memcmp(message, output.octets, octets.length) == 0);
}

#endif
