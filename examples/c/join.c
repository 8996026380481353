/* Joins three fragments of one message and prints its text; then shows a refusal. tests/exports/run.sh builds and runs it; by hand:
 *   gcc -Iinclude examples/c/join.c crates/exports/out/libexports.a -o join */
#include <stdio.h>
#include <string.h>

#include "semuryeon.h"

#define LID 0x0A1B2C3
#define NUMBER 2

/* All zero is the first state: an empty table. */
static uint32_t table[SEMURYEON_TABLE_WORDS];
static uint8_t store[SEMURYEON_STORE_OCTETS];
static uint8_t output[SEMURYEON_OUTPUT_OCTETS];

/* Puts a header in front of the text, hands the fragment over and says what became of it. */
static void hear(uint32_t counter, uint32_t last, const char *text)
{
    uint8_t lsdu[128];
    size_t header = semuryeon_first(semuryeon_header_write(last, NUMBER, counter, lsdu, sizeof lsdu));
    size_t length = header + strlen(text);
    memcpy(lsdu + header, text, strlen(text));

    uint64_t answer = semuryeon_fragment(LID, 1000 + counter, lsdu, length, table, SEMURYEON_TABLE_WORDS, store, sizeof store, output, sizeof output);
    if (semuryeon_refusal(answer) != 0)
        printf("fragment %u: refused %u\n", (unsigned)counter, (unsigned)semuryeon_refusal(answer));
    else if (semuryeon_kind(answer) == 1)
        printf("fragment %u: %u octets held\n", (unsigned)counter, (unsigned)semuryeon_first(answer));
    else
        printf("fragment %u: whole, \"%.*s\"\n", (unsigned)counter, (int)semuryeon_first(answer), (const char *)output);
}

int main(void)
{
    hear(0, 0, "tag ");
    hear(1, 0, "not ");
    hear(2, 1, "valid");
    hear(2, 1, "valid"); /* refused 8: the message is no longer open */
    return 0;
}
