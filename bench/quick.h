/* The choice, written for speed: a limit for what `choose` can take. */
#ifndef QUICK_H
#define QUICK_H

#include <stdint.h>

#include "reference.h"

/* The first of the smallest sets that reach the goal; the table is taken to be
   well formed. */
uint32_t quick_choose(const ref_table *table, ref_goal goal);

/* How many nodes the last search visited. */
uint64_t quick_nodes(void);

#endif
