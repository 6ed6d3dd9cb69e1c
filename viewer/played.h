/*
 * What the records of a trace that settled or stopped tell together with their replies. It is worked out here and not by
 * the library.
 */
#ifndef PLAYED_H
#define PLAYED_H

#include "text.h"

void note_played(struct desk *desk);

/* Whether a cycle still runs at the end of what is shown. */
int runs(const struct desk *desk);

/* Whether a cycle that was over at that stamp was cut by `off`. One that ends at the same stamp would not be settled. */
int cut_at(const struct desk *desk, uint32_t stamp);

#endif
