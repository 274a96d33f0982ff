/*
 * Prints for each line of standard input what `cvss score` prints; with an argument, vectors of v3 may lack base metrics. A
 * buffer that is too small by one byte must be left as it was.
 */
#define _POSIX_C_SOURCE 200809L
#include "cvss.h"

#include <stdio.h>
#include <stdlib.h>
#include <string.h>
#include <sys/types.h>

/* Prints the line of a text. Returns the status of the program if it cannot go on, and otherwise 0. */
static int print_line(const char *text, size_t length, uint32_t flags)
{
    size_t needed = cvss_score_line(text, length, flags, NULL, 0);
    char *line = malloc(needed), *untouched = malloc(needed);
    if (line == NULL || untouched == NULL)
        return 2;
    memset(line, '#', needed);
    memset(untouched, '#', needed);
    int status = cvss_score_line(text, length, flags, line, needed - 1) == needed && memcmp(line, untouched, needed) == 0 ? 0 : 3;
    status = cvss_score_line(text, length, flags, line, needed) == needed ? status : 3;
    fwrite(line, 1, needed, stdout);
    putchar('\n');
    free(untouched);
    free(line);
    return status;
}

int main(int count, char **words)
{
    uint32_t flags = count > 1 && words[1][0] != '\0' ? CVSS_ALLOW_INCOMPLETE : 0;
    char *line = NULL;
    size_t room = 0;
    ssize_t read;
    int status = 0;
    while (status == 0 && (read = getline(&line, &room, stdin)) >= 0) {
        size_t length = (size_t)read;
        if (length > 0 && line[length - 1] == '\n')
            length--;
        if (length > 0 && line[length - 1] == '\r')
            length--;
        status = print_line(line, length, flags);
    }
    free(line);
    return ferror(stdin) || fflush(stdout) != 0 ? 2 : status;
}
