/*
 * The second program's files: a line for each request, and one for its answer
 * (second/README.md).
 */
#ifndef LINES_H
#define LINES_H

#include "call.h"

/*
 * Calls with each pair of lines, in their order. A line that is none ends the program with
 * its number.
 */
void lines_each(const char *requests, const char *answers, void (*with)(const struct call *));

#endif
