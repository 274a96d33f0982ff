/*
 * Prints the explanation of each line of standard input, and nothing for a line that is rejected; a buffer that is too small,
 * also by one byte, must be left as it was. Vectors of v3 may lack base metrics.
 */
#define _POSIX_C_SOURCE 200809L
#include "cvss.h"

#include <stdio.h>
#include <stdlib.h>
#include <string.h>
#include <sys/types.h>

/* How many bytes of an array are this one. */
static size_t count_of(char byte, const char *bytes, size_t length)
{
    size_t count = 0;
    for (size_t i = 0; i < length; i++)
        count += bytes[i] == byte;
    return count;
}

/* Prints an explanation of so many bytes. Returns whether it is written only where it fits. */
static bool print_explanation(const char *text, size_t length, size_t needed)
{
    CvssError error = CVSS_ERROR_INIT;
    char *explanation = malloc(needed);
    if (explanation == NULL)
        return false;
    memset(explanation, '#', needed);
    bool is_right = cvss_explain(text, length, CVSS_ALLOW_INCOMPLETE, &error, explanation, needed - 1) == needed
        && count_of('#', explanation, needed) == needed;
    is_right = cvss_explain(text, length, CVSS_ALLOW_INCOMPLETE, &error, explanation, needed) == needed && is_right;
    fwrite(explanation, 1, needed, stdout);
    putchar('\n');
    free(explanation);
    return is_right && error.kind == CVSS_ACCEPTED;
}

int main(void)
{
    char *line = NULL;
    size_t room = 0;
    ssize_t count;
    bool is_right = true;
    while (is_right && (count = getline(&line, &room, stdin)) >= 0) {
        size_t length = (size_t)count;
        if (length > 0 && line[length - 1] == '\n')
            length--;
        char small[1] = {'#'};
        CvssError error = CVSS_ERROR_INIT;
        size_t needed = cvss_explain(line, length, CVSS_ALLOW_INCOMPLETE, &error, small, 1);
        is_right = small[0] == '#';
        if (error.kind == CVSS_ACCEPTED)
            is_right = print_explanation(line, length, needed) && is_right;
    }
    free(line);
    return !is_right ? 3 : ferror(stdin) || fflush(stdout) != 0 ? 2 : 0;
}
