/*
 * Prints what is known of each vector that is given as an argument. The status is 1 if a text is rejected, and
 * 2 where there is no memory or the output fails.
 */
#include "cvss.h"

#include <stdio.h>
#include <stdlib.h>
#include <string.h>

/* Prints a score with its severity, if the version has it. */
static void print_score(const char *name, int32_t tenths, int32_t severity)
{
    if (tenths != CVSS_NOTHING)
        printf("  %s: %d.%d %s\n", name, (int)(tenths / 10), (int)(tenths % 10), cvss_severity_name(severity));
}

static void print_scores(const CvssVector *vector)
{
    print_score("score", vector->score, vector->severity);
    print_score("base", vector->base, vector->base_severity);
    print_score("temporal", vector->temporal, vector->temporal_severity);
    print_score("environmental", vector->environmental, vector->environmental_severity);
}

/* Prints the facts of a vector, or why the text is rejected; gets the length of what is written first. */
static int print_vector(const char *text)
{
    CvssVector vector = CVSS_VECTOR_INIT;
    CvssError error = CVSS_ERROR_INIT;
    size_t length = strlen(text);
    size_t size = cvss_parse(text, length, 0, &vector, &error, NULL, 0);
    char *buffer = malloc(size);
    if (buffer == NULL)
        return 2;
    cvss_parse(text, length, 0, &vector, &error, buffer, size);
    if (error.kind == CVSS_ACCEPTED) {
        printf("%.*s\n", (int)size, buffer);
        print_scores(&vector);
    } else {
        printf("%s\n  error: %.*s\n", text, (int)size, buffer);
    }
    free(buffer);
    return error.kind == CVSS_ACCEPTED ? 0 : 1;
}

int main(int count, char **texts)
{
    int status = 0;
    for (int i = 1; i < count && status != 2; i++) {
        int own = print_vector(texts[i]);
        status = own > status ? own : status;
    }
    return fflush(stdout) == 0 ? status : 2;
}
