/* Which kinds of call were met, and how often: a comparison that never met a kind says nothing of it. */
#ifndef TALLY_H
#define TALLY_H

#include <stdbool.h>

#include "lent.h"

/* Counts a call by what it was lent, its access and its answer. It comes before the call, while the image is that of entry. */
void tally(struct lent *lent, struct access access, struct answer answer);

/* Prints how many kinds there are and how often the rarest was met; false where one was never met. */
bool tally_is_full(void);

#endif
