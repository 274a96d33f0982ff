/*
 * Scores each of the 15,116,544 combinations of effective values of CVSS v4.0. Prints how many there are, the sum of their scores in
 * tenths, and a sum over what cvss_parse returns and writes for all of them. Each text is canonical: that another one is written, or
 * that cvss_score returns another score, ends the program with status 1.
 */
#include "cvss.h"
#include <stdio.h>
#include <string.h>

enum { METRICS = 15, SI = 9, SA = 10, ROOM = 200 };
/* S is a value of the modified metric alone. */
static const struct {
    const char *name, *values;
} metrics[METRICS] = {
    {"AV", "NALP"}, {"AC", "LH"},  {"AT", "NP"},   {"PR", "NLH"},  {"UI", "NPA"}, {"VC", "HLN"}, {"VI", "HLN"}, {"VA", "HLN"},
    {"SC", "HLN"},  {"SI", "HLNS"}, {"SA", "HLNS"}, {"E", "APU"}, {"CR", "HML"}, {"IR", "HML"}, {"AR", "HML"},
};
static char text[ROOM] = "CVSS:4.0", buffer[ROOM];
static char chosen[METRICS];
static uint64_t count, total, sum = 14695981039346656037u;

static int try_text(size_t length)
{
    CvssVector vector = CVSS_VECTOR_INIT;
    CvssError error = CVSS_ERROR_INIT;
    const int32_t *numbers = &vector.version;
    int i;
    if (chosen[SI] == 'S')
        length += (size_t)sprintf(text + length, "/MSI:S");
    if (chosen[SA] == 'S')
        length += (size_t)sprintf(text + length, "/MSA:S");
    if (cvss_parse(text, length, 0, &vector, &error, buffer, sizeof buffer) != length || memcmp(text, buffer, length)
        || error.kind != CVSS_ACCEPTED || cvss_score(text, length, 0) != vector.score) {
        printf("%.*s\n", (int)length, text);
        return 0;
    }
    count++;
    total += (uint64_t)vector.score;
    for (i = 0; i < 15; i++)
        sum = (sum ^ (uint64_t)numbers[i]) * 1099511628211u;
    return 1;
}

/* Tries each text that begins with these metrics. */
static int try_from(int metric, size_t length)
{
    const char *value;
    size_t added;
    if (metric == METRICS)
        return try_text(length);
    for (value = metrics[metric].values; *value; value++) {
        chosen[metric] = *value;
        added = (size_t)sprintf(text + length, "/%s:%c", metrics[metric].name, *value == 'S' ? 'N' : *value);
        if (!try_from(metric + 1, length + added))
            return 0;
    }
    return 1;
}

int main(void)
{
    int is_right = try_from(0, strlen(text));
    printf("%llu %llu %016llx\n", (unsigned long long)count, (unsigned long long)total, (unsigned long long)sum);
    return !is_right;
}
