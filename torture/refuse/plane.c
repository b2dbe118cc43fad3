/* Has a library be refused memory: all of it from one call on to another, or one allocation. */
#include <stdbool.h>

#include "wrapped.h"

static bool is_refused;

void refuse_memory(bool refuses) { is_refused = refuses; }

/* Refuses the allocation of this number from here on, counted from 1; none with 0. */
void refuse_allocation(unsigned long number) {
    asked = 0;
    refused_at = number;
}

/* How many allocations there were since then, with the refused one. */
unsigned long allocations(void) { return asked; }

long kept_blocks(void) { return kept; }

static int refuses(void) { return ++asked == refused_at || is_refused; }
