/* A mask has a bit for each test that separates a pair. A set of tests reaches
   the goal when it shares a bit with every mask. */
#include <string.h>

#include "quick.h"

enum { TESTS = REF_MAX_TESTS, WORDS = TESTS / 8, MOST = REF_COLUMNS * REF_MAX_FAULTS / 2, SLOTS = 4096 };

/* ------------------------------------------------------------- the masks */

/* Which of the 8 bytes are not 0, one bit for each. */
static uint32_t bytes_set(uint64_t x)
{
    const uint64_t low = 0x7f7f7f7f7f7f7f7fu;
    uint64_t high = (((x & low) + low) | x) & ~low;
    return (uint32_t)((high >> 7) * 0x0102040810204080u >> 56);
}

static uint32_t mask_of(const uint64_t *a, const uint64_t *b)
{
    return bytes_set(a[0] ^ b[0]) | bytes_set(a[1] ^ b[1]) << 8 | bytes_set(a[2] ^ b[2]) << 16;
}

/* The masks that differ, none empty; returns how many. */
static int list_masks(const ref_table *table, ref_goal goal, uint32_t *list)
{
    static uint32_t slots[SLOTS];
    uint64_t column[REF_COLUMNS][WORDS];
    int columns = (int)table->faults + 1, n = 0, a, b;

    memset(slots, 0, sizeof slots);
    for (a = 0; a < columns; a++)
        memcpy(column[a], table->outputs[a], TESTS);
    for (a = 0; a < (goal == REF_DETECT ? 1 : columns); a++)
        for (b = a + 1; b < columns; b++) {
            uint32_t mask = mask_of(column[a], column[b]);
            uint32_t at = mask * 2654435761u >> 20;
            while (slots[at] != 0 && slots[at] != mask)
                at = (at + 1) % SLOTS;
            if (slots[at] == mask)
                continue;
            slots[at] = mask;
            list[n++] = mask;
        }
    return n;
}

/* The tests that some mask has, but for those of which a lower one is in every
   mask that has them. */
static uint32_t kept_tests(const uint32_t *list, int n)
{
    uint32_t shared[TESTS], used = 0, kept = 0;
    int i, t;

    memset(shared, 0xff, sizeof shared);
    for (i = 0; i < n; i++) {
        uint32_t left = list[i];
        used |= left;
        for (; left != 0; left &= left - 1)
            shared[__builtin_ctz(left)] &= list[i];
    }
    for (t = 0; t < TESTS; t++)
        if ((used >> t & 1) != 0 && (shared[t] & ((1u << t) - 1)) == 0)
            kept |= 1u << t;
    return kept;
}

static int holds_another(const uint32_t *kept, int n, uint32_t mask)
{
    int i;
    for (i = 0; i < n; i++)
        if ((kept[i] & mask) == kept[i])
            return 1;
    return 0;
}

/* Those, cut to the kept tests, that contain no other, by rising size. */
static int least_masks(const uint32_t *list, int n, uint32_t kept, uint32_t *least)
{
    uint32_t sorted[MOST];
    int start[TESTS + 2] = {0}, i, k = 0;

    for (i = 0; i < n; i++)
        start[__builtin_popcount(list[i] & kept) + 1]++;
    for (i = 1; i <= TESTS + 1; i++)
        start[i] += start[i - 1];
    for (i = 0; i < n; i++)
        sorted[start[__builtin_popcount(list[i] & kept)]++] = list[i] & kept;
    for (i = 0; i < n; i++)
        if (!holds_another(least, k, sorted[i]))
            least[k++] = sorted[i];
    return k;
}

/* ------------------------------------------------------------ the search */

static uint64_t visited;
static uint32_t answer;

/* Whether the unhit masks need more than `room` tests: those of them that share
   no test, taken as they come, need one each. */
static int needs_more(const uint32_t *unhit, int n, uint32_t rest, int room)
{
    uint32_t taken = 0;
    int i;

    for (i = 0; i < n; i++)
        if ((unhit[i] & taken) == 0) {
            taken |= unhit[i] & rest;
            if (room-- == 0)
                return 1;
        }
    return 0;
}

/* Takes kept tests from t on, at most `room`, so that each unhit mask is hit. */
static int search(const uint32_t *unhit, int n, uint32_t rest, int room, uint32_t chosen)
{
    uint32_t left[MOST], test;
    int i, k = 0;

    visited++;
    if (n == 0) {
        answer = chosen;
        return 1;
    }
    if (rest == 0 || needs_more(unhit, n, rest, room))
        return 0;
    test = rest & -rest;
    rest &= rest - 1;
    for (i = 0; i < n; i++) {
        left[k] = unhit[i];
        k += (unhit[i] & test) == 0;
    }
    return search(left, k, rest, room - 1, chosen | test) || search(unhit, n, rest, room, chosen);
}

uint32_t quick_choose(const ref_table *table, ref_goal goal)
{
    uint32_t list[MOST], least[MOST];
    int n = list_masks(table, goal, list);
    uint32_t kept = kept_tests(list, n);
    int k = least_masks(list, n, kept, least), room = 0;

    visited = 0;
    while (!search(least, k, kept, room, 0))
        room++;
    return answer;
}

uint64_t quick_nodes(void)
{
    return visited;
}
