/*
 * Counts the base scores of all base vectors: prints a row for each score, with how many vectors of v2, v3.0 and v4.0 have it,
 * as the file reference/base_scores.tsv has them. Ends with status 3 where v3.1 has another base score than v3.0, or the
 * functions disagree.
 */
#include "cvss.h"
#include "cvss_words.h"

#include <stdio.h>
#include <stdlib.h>
#include <string.h>

enum { SCORES = 101 };

/* How many vectors of a version have each score. */
typedef struct Counted {
    int32_t version;
    unsigned long counts[SCORES];
} Counted;

/* Counts a vector, of which each function says the same. */
static void count_vector(Counted *counted, const char *text, size_t length)
{
    CvssVector vector = CVSS_VECTOR_INIT;
    CvssError error = CVSS_ERROR_INIT;
    CvssValues values = CVSS_VALUES_INIT;
    char buffer[100], line[120], expected[120];
    bool is_right = cvss_parse(text, length, 0, &vector, &error, buffer, sizeof buffer) == length && error.kind == CVSS_ACCEPTED
        && memcmp(buffer, text, length) == 0 && vector.version == counted->version && vector.is_complete == 1;
    is_right = is_right && vector.base >= 0 && vector.base < SCORES && vector.score == vector.base
        && vector.severity == vector.base_severity && cvss_severity(vector.version, vector.score) == vector.severity
        && cvss_score(text, length, 0) == vector.score && cvss_values(text, length, 0, &values) && values.score == vector.score;
    const char *severity = cvss_severity_name(vector.severity);
    int expected_length = sprintf(expected, "%.*s %d.%d %s", (int)length, text, (int)(vector.score / 10),
                                  (int)(vector.score % 10), severity == NULL ? "" : severity);
    is_right = is_right && cvss_score_line(text, length, 0, line, sizeof line) == (size_t)expected_length
        && memcmp(line, expected, (size_t)expected_length) == 0;
    if (!is_right) {
        printf("%.*s\n", (int)length, text);
        exit(3);
    }
    counted->counts[vector.base]++;
}

/* Counts the vectors that begin with a text, which has the base metrics before these. */
static void count_vectors(Counted *counted, const CvssMetricType *types, const char *begun)
{
    char text[100];
    for (size_t i = 0; i < types->count; i++) {
        const char *joint = begun[0] == '\0' ? "" : "/";
        int length = sprintf(text, "%s%s%s:%s", begun, joint, types->name, types->values[i].value);
        if (types[1].is_mandatory)
            count_vectors(counted, types + 1, text);
        else
            count_vector(counted, text, (size_t)length);
    }
}

int main(void)
{
    static Counted all[4] = {{20, {0}}, {30, {0}}, {31, {0}}, {40, {0}}};
    static const char *const prefixes[4] = {"", "CVSS:3.0", "CVSS:3.1", "CVSS:4.0"};
    for (size_t i = 0; i < 4; i++) {
        size_t count;
        count_vectors(&all[i], cvss_metric_types(all[i].version, &count), prefixes[i]);
    }
    if (memcmp(all[1].counts, all[2].counts, sizeof all[1].counts) != 0)
        return 3;
    printf("score\tv2\tv3.0, v3.1\tv4.0\n");
    for (int tenths = 0; tenths < SCORES; tenths++)
        printf("%d.%d\t%lu\t%lu\t%lu\n", tenths / 10, tenths % 10, all[0].counts[tenths], all[1].counts[tenths],
               all[3].counts[tenths]);
    return fflush(stdout) == 0 ? 0 : 2;
}
