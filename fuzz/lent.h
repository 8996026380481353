/* What the fuzzed calls get lent. Each block lies between two pages that cannot be touched, right behind the first or right before the second, so that an
 * access outside it ends the run although the archive's own code is not instrumented. */
#ifndef LENT_H
#define LENT_H

#include <stddef.h>
#include <stdint.h>
#include <stdio.h>
#include <stdlib.h>
#include <string.h>
#include <sys/mman.h>

enum { PAGE = 4096, ROOM = 2 * PAGE, MARGIN = 64 };

#define DEMAND(condition) ((condition) ? (void)0 : failed(#condition, __FILE__, __LINE__))

static void failed(const char *condition, const char *file, int line)
{
    fprintf(stderr, "%s:%d: does not hold: %s\n", file, line, condition);
    abort();
}

struct lent {
    uint8_t *octets;
    size_t length;
    uint8_t *pages;
    uint8_t before[ROOM];
};

static void map_pages(struct lent *lent)
{
    uint8_t *pages = mmap(NULL, ROOM + 2 * PAGE, PROT_READ | PROT_WRITE, MAP_PRIVATE | MAP_ANONYMOUS, -1, 0);
    DEMAND(pages != MAP_FAILED);
    DEMAND(mprotect(pages, PAGE, PROT_NONE) == 0 && mprotect(pages + PAGE + ROOM, PAGE, PROT_NONE) == 0);
    lent->pages = pages + PAGE;
}

/* Lends a copy of the content; its other side has a margin of known octets. */
static void *lend(struct lent *lent, const void *content, size_t length, int behind_first)
{
    if (lent->pages == NULL)
        map_pages(lent);
    DEMAND(length + MARGIN <= ROOM);
    lent->octets = behind_first ? lent->pages : lent->pages + ROOM - length;
    lent->length = length;
    memset(behind_first ? lent->octets + length : lent->octets - MARGIN, 0xC3, MARGIN);
    if (length > 0) {
        memcpy(lent->octets, content, length);
        memcpy(lent->before, content, length);
    }
    return lent->octets;
}

/* Nothing from an octet on has changed, nor has the margin. */
static void demand_kept(const struct lent *lent, size_t from)
{
    const uint8_t *margin = lent->octets == lent->pages ? lent->octets + lent->length : lent->octets - MARGIN;
    for (int i = 0; i < MARGIN; i++)
        DEMAND(margin[i] == 0xC3);
    DEMAND(from <= lent->length);
    DEMAND(memcmp(lent->octets + from, lent->before + from, lent->length - from) == 0);
}

/* The input, taken apart from its front; past its end everything is 0. */
struct input {
    const uint8_t *at;
    size_t left;
};

static uint32_t take(struct input *input, int octets)
{
    uint32_t number = 0;
    for (int i = 0; i < octets; i++) {
        number = number << 8 | (input->left > 0 ? *input->at : 0);
        input->at += input->left > 0;
        input->left -= input->left > 0;
    }
    return number;
}

/* So many octets of the input as its next one or two octets say, and as there are. */
static size_t take_octets(struct input *input, int size_octets, size_t most, const uint8_t **octets)
{
    size_t length = take(input, size_octets) % (most + 1);
    if (length > input->left)
        length = input->left;
    *octets = input->at;
    input->at += length;
    input->left -= length;
    return length;
}

#endif
