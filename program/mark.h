/* Where in a line a fault is. */
#ifndef MARK_H
#define MARK_H

#include "excerpt.h"

/* Marks every place that has this number; none where the line has it as a whole. */
void mark_fault(const struct joined *joined, uint32_t number, struct marks *marks);

#endif
