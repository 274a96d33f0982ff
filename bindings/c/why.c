/*
 * Prints why the vector that is given as an argument has its score: the numbers on the way to it, as a JSON object. The
 * status is 1 if the text is rejected, and 2 if there is no memory or the output fails.
 */
#include "cvss.h"

#include <stdio.h>
#include <stdlib.h>
#include <string.h>

int main(int count, char **texts)
{
    const char *text = count > 1 ? texts[1] : "";
    size_t length = strlen(text);
    CvssError error = CVSS_ERROR_INIT;
    size_t size = cvss_explain(text, length, 0, &error, NULL, 0);
    if (error.kind != CVSS_ACCEPTED)
        return 1;
    char *explanation = malloc(size);
    if (explanation == NULL)
        return 2;
    cvss_explain(text, length, 0, &error, explanation, size);
    printf("%.*s\n", (int)size, explanation);
    free(explanation);
    return fflush(stdout) == 0 ? 0 : 2;
}
