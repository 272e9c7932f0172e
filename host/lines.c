#define _DEFAULT_SOURCE
#include "lines.h"

#include <stdio.h>
#include <stdlib.h>
#include <string.h>

#include "fail.h"
#include "shaftladder.h"

/* A file of lines, and the line that was read last. */
struct lines {
    const char *name;
    FILE *file;
    char *line;
    size_t room;
    size_t number;
};

static struct lines lines_open(const char *name)
{
    struct lines lines = {name, fopen(name, "r"), NULL, 0, 0};
    if (lines.file == NULL) {
        fail("%s cannot be read", name);
    }
    return lines;
}

/* The next line, without its end; null behind the last one. */
static char *lines_next(struct lines *lines)
{
    ssize_t len = getline(&lines->line, &lines->room, lines->file);
    if (len < 0) {
        return NULL;
    }
    fail_at(lines->name, ++lines->number);
    if (lines->line[len - 1] == '\n') {
        lines->line[len - 1] = '\0';
    }
    return lines->line;
}

static void lines_close(struct lines *lines)
{
    if (ferror(lines->file)) {
        fail("%s cannot be read", lines->name);
    }
    fclose(lines->file);
    free(lines->line);
}

static char *word(char **rest)
{
    char *found = strsep(rest, " ");
    if (found == NULL) {
        fail("a word is missing");
    }
    return found;
}

static size_t decimal(char **rest)
{
    const char *digits = word(rest);
    size_t value = 0;
    if (*digits == '\0') {
        fail("a number is missing");
    }
    for (; *digits != '\0'; digits++) {
        size_t digit = (size_t)(*digits - '0');
        if (digit > 9 || value > (SIZE_MAX - digit) / 10) {
            fail("this is no number: %s", digits);
        }
        value = 10 * value + digit;
    }
    return value;
}

static uint8_t half(char digit)
{
    static const char digits[] = "0123456789abcdef";
    const char *found = digit == '\0' ? NULL : strchr(digits, digit);
    if (found == NULL) {
        fail("this is no hexadecimal digit: %c", digit);
    }
    return (uint8_t)(found - digits);
}

/* A string in hexadecimal, laid at `at`; `-` is no bytes. */
static struct string string(char **rest, uint8_t at[LONGEST])
{
    const char *digits = word(rest);
    size_t count = strcmp(digits, "-") == 0 ? 0 : strlen(digits);
    struct string bytes = {at, count / 2};
    if (count % 2 != 0 || bytes.len > LONGEST) {
        fail("a string of %zu digits", count);
    }
    for (size_t i = 0; i < bytes.len; i++) {
        at[i] = (uint8_t)(16 * half(digits[2 * i]) + half(digits[2 * i + 1]));
    }
    return bytes;
}

/*
 * `seal EDITION FORM KEY NONCE DATA MESSAGE TAG ROOM` or `open EDITION FORM KEY NONCE DATA
 * SEALED TAG ROOM`; returns the room.
 */
static size_t read_request(char *line, struct call *call)
{
    static uint8_t bytes[PARTS][LONGEST];
    const char *kind = word(&line);
    call->opens = strcmp(kind, "open") == 0;
    if (!call->opens && strcmp(kind, "seal") != 0) {
        fail("neither seal nor open");
    }
    call->edition = decimal(&line);
    call->form = decimal(&line);
    for (int i = 0; i < PARTS; i++) {
        call->parts[i] = string(&line, bytes[i]);
    }
    call->tag_len = decimal(&line);
    size_t room = decimal(&line);
    if (line != NULL) {
        fail("a word too many");
    }
    return room;
}

/* `NUMBER LENGTH RUNS OUTPUT`. The number is the answer: length and runs are not looked at. */
static void read_answer(char *line, struct call *call, size_t room)
{
    static uint8_t bytes[LONGEST];
    size_t number = decimal(&line);
    decimal(&line);
    decimal(&line);
    call->after = string(&line, bytes);
    if (line != NULL || number > SHAFTLADDER_BAD_EDITION || call->after.len != room) {
        fail("this is no answer to its request");
    }
    call->number = (uint32_t)number;
}

void lines_each(const char *requests, const char *answers, void (*with)(const struct call *))
{
    struct lines asked = lines_open(requests), told = lines_open(answers);
    char *request, *answer;
    struct call call;
    while ((request = lines_next(&asked)) != NULL) {
        size_t room = read_request(request, &call);
        if ((answer = lines_next(&told)) == NULL) {
            fail("the answer is missing");
        }
        read_answer(answer, &call, room);
        with(&call);
    }
    if (lines_next(&told) != NULL) {
        fail("an answer too many");
    }
    lines_close(&asked);
    lines_close(&told);
}
