/*
 * Prints the lines of cvss_score_lines for standard input, with a buffer of so many bytes as the first argument says, which
 * grows if a line does not fit; with a second argument, vectors of v3 may lack base metrics. Ends with status 3 if the buffer
 * is changed after the lines.
 */
#include "cvss.h"

#include <stdio.h>
#include <stdlib.h>
#include <string.h>

/* All of standard input, or NULL. */
static char *input(size_t *length)
{
    size_t room = 1 << 16;
    char *text = malloc(room);
    *length = 0;
    while (text != NULL) {
        size_t count = fread(text + *length, 1, room - *length, stdin);
        if (count == 0)
            return text;
        *length += count;
        if (*length == room) {
            char *larger = realloc(text, room *= 2);
            if (larger == NULL)
                free(text);
            text = larger;
        }
    }
    return NULL;
}

/* Prints the lines of texts, and sets how many bytes of them these are for; returns the status of the program if it cannot go on. */
static int print_lines(const char *texts, size_t length, uint32_t flags, char *buffer, size_t size, size_t *read)
{
    memset(buffer, '#', size);
    size_t returned = cvss_score_lines(texts, length, flags, buffer, size, read);
    for (size_t i = returned; i < size; i++)
        if (buffer[i] != '#')
            return 3;
    return fwrite(buffer, 1, returned, stdout) == returned ? 0 : 2;
}

int main(int count, char **words)
{
    size_t size = count > 1 ? strtoul(words[1], NULL, 10) : 1 << 20;
    uint32_t flags = count > 2 ? CVSS_ALLOW_INCOMPLETE : 0;
    size_t length, done = 0;
    char *texts = input(&length);
    char *buffer = malloc(size + 1);
    int status = texts == NULL || buffer == NULL ? 2 : 0;
    while (status == 0 && memchr(texts + done, '\n', length - done) != NULL) {
        size_t read;
        status = print_lines(texts + done, length - done, flags, buffer, size, &read);
        done += read;
        if (read == 0) {
            free(buffer);
            buffer = malloc(size = 2 * size + 1);
            status = buffer == NULL ? 2 : status;
        }
    }
    free(texts);
    free(buffer);
    return fflush(stdout) == 0 ? status : 2;
}
