/*
 * Prints each vector in the lines of standard input: the line's number and the column of the match in bytes, both from 1, and
 * what `cvss score` prints for the match.
 */
#define _POSIX_C_SOURCE 200809L
#include "cvss.h"

#include <stdio.h>
#include <stdlib.h>
#include <string.h>
#include <sys/types.h>

static void print_line(const char *text, size_t length)
{
    size_t needed = cvss_score_line(text, length, 0, NULL, 0);
    char *line = malloc(needed);
    if (line == NULL || cvss_score_line(text, length, 0, line, needed) != needed)
        exit(3);
    fwrite(line, 1, needed, stdout);
    putchar('\n');
    free(line);
}

/* The bytes of a line in memory that just fits, so that a byte read after it is noticed. */
static char *copied(const char *line, size_t length)
{
    char *text = malloc(length > 0 ? length : 1);
    if (text == NULL)
        exit(3);
    memcpy(text, line, length);
    return text;
}

/* Prints the matches, each of which begins after the one before it and has bytes. */
static void print_matches(unsigned long number, const char *text, size_t length)
{
    CvssMatch match = CVSS_MATCH_INIT, last = match;
    while (cvss_find(text, length, &match)) {
        if (match.size != sizeof match || match.length == 0 || match.offset < last.next || match.offset >= length
            || match.length > length - match.offset || match.next < match.offset + match.length || match.next > length)
            exit(3);
        printf("%lu:%zu ", number, match.offset + 1);
        print_line(text + match.offset, match.length);
        last = match;
    }
    /* nothing is written where none is left, also if it is asked for again */
    if (cvss_find(text, length, &match) || match.next != last.next || match.offset != last.offset
        || match.length != last.length)
        exit(3);
}

int main(void)
{
    char *line = NULL;
    size_t room = 0;
    ssize_t count;
    for (unsigned long number = 1; (count = getline(&line, &room, stdin)) >= 0; number++) {
        size_t length = (size_t)count;
        if (length > 0 && line[length - 1] == '\n')
            length--;
        char *text = copied(line, length);
        print_matches(number, text, length);
        free(text);
    }
    free(line);
    return ferror(stdin) || fflush(stdout) != 0 ? 2 : 0;
}
