/* table.h: what was measured of a series, as a table. */
#ifndef TABLE_H
#define TABLE_H

#include "measure.h"

/* Prints the series' table; `measured` has an entry for each of its boards. */
void print_table(const struct series *series, const struct measured *measured);

#endif
