/*
 * The parts of the report, in their order.
 */
#ifndef SECTIONS_H
#define SECTIONS_H

#include "desk.h"

void put_style(const struct desk *desk);

void put_verdict(const struct desk *desk);
void put_basis(const struct desk *desk);
void put_map(const struct desk *desk);
void put_contents(const struct desk *desk);
void put_records(const struct desk *desk);

/* Of the verdict, what a refusal says. */
void put_refused(const struct desk *desk);

#endif
