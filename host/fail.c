#include "fail.h"

#include <stdarg.h>
#include <stdio.h>
#include <stdlib.h>

static const char *at_file;
static size_t at_line;

void fail_at(const char *file, size_t line)
{
    at_file = file;
    at_line = line;
}

static void end(int status, const char *format, va_list words) __attribute__((noreturn));

static void end(int status, const char *format, va_list words)
{
    if (at_file != NULL) {
        fprintf(stderr, "%s:%zu: ", at_file, at_line);
    }
    vfprintf(stderr, format, words);
    fputc('\n', stderr);
    exit(status);
}

void differ(const char *format, ...)
{
    va_list words;
    va_start(words, format);
    end(1, format, words);
}

void fail(const char *format, ...)
{
    va_list words;
    va_start(words, format);
    end(2, format, words);
}
