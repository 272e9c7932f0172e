/*
 * Ends the program with a message, which begins with the file and the line that it has come
 * to.
 */
#ifndef FAIL_H
#define FAIL_H

#include <stddef.h>

/* The line that the program has come to. */
void fail_at(const char *file, size_t line);

/* A call did not do what it must: status 1. */
void differ(const char *format, ...) __attribute__((noreturn, format(printf, 1, 2)));

/* The program could not try: status 2. */
void fail(const char *format, ...) __attribute__((noreturn, format(printf, 1, 2)));

#endif
