/* libFuzzer over every export: an input is a list of calls on one table, link and tag. An octet picks the call by its low bits, and by its top bit where the
 * lent blocks lie; the numbers and octets of the call follow. Demanded: a refusal is one that the call gives, and leaves all that was lent as it was; an answer
 * lies within its bounds; octets accepted are those delivered, dropped and held; a message written again is the same. */
#include "joining_calls.h"
#include "tag_calls.h"

static size_t take_words(struct input *input, uint32_t *words)
{
    size_t count = take(input, 1) % MOST_WORDS;
    for (size_t i = 0; i < count; i++)
        words[i] = take(input, 1 + 3 * (input->left > 0 && *input->at == 255));
    return count;
}

static size_t take_area(struct input *input, uint8_t *area)
{
    const uint8_t *at;
    size_t length = take_octets(input, 2, MOST_AREA, &at);
    memcpy(area, at, length);
    return length;
}

/* Changes what the calls get lent: a word, a length, a list, an area. */
static void set_up(struct input *input)
{
    uint32_t what = take(input, 1) % 9;
    switch (what) {
    case 0:
        state.tampered = 1;
        state.table[take(input, 1) % SEMURYEON_TABLE_WORDS] = take(input, 4);
        break;
    case 1:
        state.tampered = 1;
        state.table_words = take(input, 1) % MOST_WORDS;
        break;
    case 2: state.link[take(input, 1) % SEMURYEON_LINK_WORDS] = take(input, 4); break;
    case 3: state.row_words = take_words(input, state.rows); break;
    case 4: state.element_words = take_words(input, state.elements); break;
    case 5: state.mark_octets = take_area(input, state.marks); break;
    case 6: state.factory_octets = take_area(input, state.factory); break;
    case 7: state.writable_octets = take_area(input, state.writable); break;
    default: state.credential_octets = take_area(input, state.credentials); break;
    }
}

/* A tag with three attributes and one element, an empty table, a sleeping link. */
static void begin(void)
{
    static const uint32_t first_rows[] = {5, 0, 0, 2, 0, 6, 1, 0, 2, 0, 7, 1, 2, 2, 1}, first_elements[] = {1, 1, 0, 6};
    memset(&state, 0, sizeof state);
    state.table_words = SEMURYEON_TABLE_WORDS;
    state.link_words = SEMURYEON_LINK_WORDS;
    memcpy(state.rows, first_rows, sizeof first_rows);
    state.row_words = sizeof first_rows / 4;
    memcpy(state.elements, first_elements, sizeof first_elements);
    state.element_words = sizeof first_elements / 4;
    state.mark_octets = 6;
    state.factory_octets = 2;
    state.writable_octets = 4;
    state.credential_octets = 2;
}

int LLVMFuzzerTestOneInput(const uint8_t *data, size_t size)
{
    static void (*const calls[CALLS])(struct input *) = {
        header_read, header_write, fragment, expire, release, check, string, rewrite, bst, link_release, link_tick, lookup, request, line, set_up,
    };
    struct input input = {data, size};
    begin();
    while (input.left > 0) {
        uint32_t call = take(&input, 1);
        behind_first = call >> 7;
        calls[(call & 127) % CALLS](&input);
    }
    return 0;
}
