/*
 * Scores the lines of standard input in eight threads at once, and prints what cvss_score_lines writes, which is the same in
 * each thread. So is what the other functions write for each line, with which each thread begins elsewhere: what one thread
 * left in memory that all share would be of another line.
 */
#define _POSIX_C_SOURCE 200809L
#include "cvss.h"

#include <pthread.h>
#include <stdio.h>
#include <stdlib.h>
#include <string.h>

enum { THREADS = 8, ROOM = 1 << 20, MOST_LINES = 10000, WRITTEN = 1 << 14 };

static char texts[ROOM];
static size_t length;
/* where each line begins, and where the last ends */
static const char *lines[MOST_LINES + 1];
static size_t count;

/* What one thread writes. */
typedef struct Own {
    size_t number;
    char scored[2 * ROOM];
    size_t size;
    /* for a line by the other functions */
    char written[WRITTEN];
    size_t end;
    /* of what they write for each line */
    uint64_t sums[MOST_LINES];
    bool is_right;
} Own;

typedef size_t (*Put)(const void *, size_t, uint32_t, CvssError *, void *, size_t);

static const Put puts_of_text[] = {cvss_without_not_defined, cvss_record, cvss_explain};

/* Moves the end past what a function wrote there; to the end of the buffer if that did not fit. */
static void advance(Own *own, size_t returned)
{
    own->end = returned <= WRITTEN - own->end ? own->end + returned : WRITTEN;
}

static void write_bytes(Own *own, const void *bytes, size_t size)
{
    if (size <= WRITTEN - own->end)
        memcpy(own->written + own->end, bytes, size);
    advance(own, size);
}

static void write_structs(Own *own, const char *line, size_t size)
{
    CvssVector vector = CVSS_VECTOR_INIT;
    CvssError error = CVSS_ERROR_INIT;
    CvssValues values = CVSS_VALUES_INIT;
    CvssNumbers numbers = CVSS_NUMBERS_INIT;
    CvssMatch match = CVSS_MATCH_INIT;
    CvssMetric metrics[CVSS_MOST_METRICS] = {{"", ""}};
    int32_t rest[4] = {0, 0, 0, cvss_score(line, size, 0)};
    advance(own, cvss_parse(line, size, 0, &vector, &error, own->written + own->end, WRITTEN - own->end));
    rest[0] = cvss_values(line, size, CVSS_ALLOW_INCOMPLETE, &values);
    rest[1] = cvss_numbers(20, line, size, &numbers) && cvss_rounded(31, &numbers.impact, &rest[2]);
    while (cvss_find(line, size, &match))
        write_bytes(own, &match.offset, sizeof match.offset + sizeof match.length);
    write_bytes(own, &vector, sizeof vector);
    write_bytes(own, &error, sizeof error);
    write_bytes(own, &values, sizeof values);
    write_bytes(own, &numbers, sizeof numbers);
    write_bytes(own, rest, sizeof rest);
    write_bytes(own, metrics, sizeof *metrics * cvss_metrics(line, size, 0, metrics, CVSS_MOST_METRICS));
    int32_t severity = cvss_severity(31, vector.score);
    write_bytes(own, &severity, sizeof severity);
}

/* Sets metrics in the vector of a line, and makes vectors of the line. */
static void write_set(Own *own, const char *line, size_t size)
{
    static const char *const metrics[] = {"E:A/MSI:S", "RC:C", "x"};
    static const int32_t versions[] = {20, 30, 31, 40};
    CvssError error = CVSS_ERROR_INIT;
    for (size_t i = 0; i < sizeof metrics / sizeof *metrics; i++) {
        char *end = own->written + own->end;
        advance(own, cvss_with_metrics(line, size, metrics[i], strlen(metrics[i]), 0, &error, end, WRITTEN - own->end));
        write_bytes(own, &error, sizeof error);
    }
    for (size_t i = 0; i < sizeof versions / sizeof *versions; i++) {
        char *end = own->written + own->end;
        advance(own, cvss_from_metrics(versions[i], line, size, 0, &error, end, WRITTEN - own->end));
        write_bytes(own, &error, sizeof error);
    }
}

/* The sum of what all functions write for a line, which depends on each byte and its place. */
static uint64_t sum_of(Own *own, const char *line, size_t size)
{
    CvssError error = CVSS_ERROR_INIT;
    uint64_t sum = 0;
    own->end = 0;
    for (size_t i = 0; i < sizeof puts_of_text / sizeof *puts_of_text; i++)
        advance(own, puts_of_text[i](line, size, 1, &error, own->written + own->end, WRITTEN - own->end));
    advance(own, cvss_score_line(line, size, 0, own->written + own->end, WRITTEN - own->end));
    write_structs(own, line, size);
    write_set(own, line, size);
    own->is_right &= own->end < WRITTEN;
    for (size_t i = 0; i < own->end; i++)
        sum = (sum ^ (unsigned char)own->written[i]) * UINT64_C(1099511628211);
    return sum;
}

static void *write_all(void *place)
{
    Own *own = place;
    size_t read;
    own->size = cvss_score_lines(texts, length, 0, own->scored, sizeof own->scored, &read);
    own->is_right = read == length;
    for (size_t i = 0; i < count; i++) {
        size_t n = (i + own->number * count / THREADS) % count;
        own->sums[n] = sum_of(own, lines[n], (size_t)(lines[n + 1] - lines[n]) - 1);
    }
    return NULL;
}

static bool are_same(const Own *own, const Own *first)
{
    return own->is_right && own->size == first->size && memcmp(own->scored, first->scored, own->size) == 0
        && memcmp(own->sums, first->sums, count * sizeof *own->sums) == 0;
}

/* Finds where the lines begin. Returns whether there are some, and not too many. */
static bool find_lines(void)
{
    const char *end;
    lines[0] = texts;
    while (count < MOST_LINES && (end = memchr(lines[count], '\n', (size_t)(texts + length - lines[count]))) != NULL)
        lines[++count] = end + 1;
    return count > 0 && lines[count] == texts + length;
}

int main(void)
{
    pthread_t threads[THREADS];
    Own *own[THREADS];
    length = fread(texts, 1, sizeof texts, stdin);
    if (!find_lines())
        return 2;
    for (size_t i = 0; i < THREADS; i++) {
        if ((own[i] = calloc(1, sizeof *own[i])) == NULL)
            return 2;
        own[i]->number = i;
        if (pthread_create(&threads[i], NULL, write_all, own[i]) != 0)
            return 2;
    }
    bool is_right = true;
    for (size_t i = 0; i < THREADS; i++)
        is_right &= pthread_join(threads[i], NULL) == 0 && are_same(own[i], own[0]);
    fwrite(own[0]->scored, 1, own[0]->size, stdout);
    for (size_t i = 0; i < THREADS; i++)
        free(own[i]);
    return fflush(stdout) != 0 ? 2 : is_right ? 0 : 1;
}
