/*
 * Prints the nanoseconds that a call takes, over the lines of standard input, which are valid vectors.
 *
 * usage: time [NAME]    with a name only that call, once over the lines, for a tool that counts instructions
 */
#define _POSIX_C_SOURCE 200809L
#include "cvss.h"

#include <stdio.h>
#include <stdlib.h>
#include <string.h>
#include <time.h>

enum { MOST_LINES = 10000, ROUNDS = 200 };

static char *lines[MOST_LINES];
static size_t lengths[MOST_LINES];
static size_t count;
static char buffer[4096];
static char all[1 << 20], written[1 << 21];
static CvssError error = CVSS_ERROR_INIT;
static size_t all_length;

static size_t parse(const char *text, size_t length)
{
    CvssVector vector = CVSS_VECTOR_INIT;
    return cvss_parse(text, length, CVSS_ALLOW_INCOMPLETE, &vector, &error, buffer, sizeof buffer) + (size_t)vector.score;
}

/* Neither facts nor the error are wanted. */
static size_t canonical(const char *text, size_t length)
{
    static CvssVector none;
    static CvssError unwanted;
    return cvss_parse(text, length, CVSS_ALLOW_INCOMPLETE, &none, &unwanted, buffer, sizeof buffer);
}

/* The text without its last byte has a value that no metric has. */
static size_t parse_rejected(const char *text, size_t length)
{
    CvssVector vector = CVSS_VECTOR_INIT;
    return cvss_parse(text, length - 1, CVSS_ALLOW_INCOMPLETE, &vector, &error, buffer, sizeof buffer) + error.quoted_start;
}

static size_t score(const char *text, size_t length)
{
    return (size_t)cvss_score(text, length, CVSS_ALLOW_INCOMPLETE);
}

static size_t metrics(const char *text, size_t length)
{
    CvssMetric own[CVSS_MOST_METRICS];
    return cvss_metrics(text, length, CVSS_ALLOW_INCOMPLETE, own, CVSS_MOST_METRICS) + (size_t)own[0].name[0];
}

static size_t values(const char *text, size_t length)
{
    CvssValues own = CVSS_VALUES_INIT;
    return cvss_values(text, length, CVSS_ALLOW_INCOMPLETE, &own) + (size_t)own.score;
}

/* Two metrics, which a vector of v2 does not have. */
static size_t with_metrics(const char *text, size_t length)
{
    static const char own[] = "MAV:L/CR:H";
    return cvss_with_metrics(text, length, own, sizeof own - 1, CVSS_ALLOW_INCOMPLETE, &error, buffer, sizeof buffer);
}

/* The second metric is rejected, with a message. */
static size_t with_rejected(const char *text, size_t length)
{
    static const char own[] = "CR:H/IR:Q";
    return cvss_with_metrics(text, length, own, sizeof own - 1, CVSS_ALLOW_INCOMPLETE, &error, buffer, sizeof buffer);
}

static size_t without_not_defined(const char *text, size_t length)
{
    return cvss_without_not_defined(text, length, CVSS_ALLOW_INCOMPLETE, &error, buffer, sizeof buffer);
}

static size_t record(const char *text, size_t length)
{
    return cvss_record(text, length, CVSS_ALLOW_INCOMPLETE, &error, buffer, sizeof buffer);
}

static size_t explain(const char *text, size_t length)
{
    return cvss_explain(text, length, CVSS_ALLOW_INCOMPLETE, &error, buffer, sizeof buffer);
}

static size_t find(const char *text, size_t length)
{
    CvssMatch match = CVSS_MATCH_INIT;
    return cvss_find(text, length, &match) + match.length;
}

static size_t score_line(const char *text, size_t length)
{
    return cvss_score_line(text, length, CVSS_ALLOW_INCOMPLETE, buffer, sizeof buffer);
}

/* All lines in one call, which is made for the first line alone. */
static size_t score_lines(const char *text, size_t length)
{
    size_t read = length;
    if (text != lines[0])
        return 0;
    return cvss_score_lines(all, all_length, CVSS_ALLOW_INCOMPLETE, written, sizeof written, &read) + read;
}

static const struct { const char *name; size_t (*call)(const char *, size_t); } calls[] = {
    {"cvss_parse", parse},
    {"cvss_parse, the text alone", canonical},
    {"cvss_parse, rejected", parse_rejected},
    {"cvss_score", score},
    {"cvss_metrics", metrics},
    {"cvss_values", values},
    {"cvss_with_metrics", with_metrics},
    {"cvss_with_metrics, rejected", with_rejected},
    {"cvss_without_not_defined", without_not_defined},
    {"cvss_record", record},
    {"cvss_explain", explain},
    {"cvss_find", find},
    {"cvss_score_line", score_line},
    {"cvss_score_lines", score_lines},
};

/* Of the rounds the fastest, which other programs on the machine have disturbed least. */
static void print_time(const char *name, size_t (*call)(const char *, size_t), int rounds)
{
    size_t sum = 0;
    double least = 1e18;
    for (int round = 0; round < rounds; round++) {
        struct timespec from, to;
        clock_gettime(CLOCK_MONOTONIC, &from);
        for (size_t i = 0; i < count; i++)
            sum += call(lines[i], lengths[i]);
        clock_gettime(CLOCK_MONOTONIC, &to);
        double taken = (double)(to.tv_sec - from.tv_sec) * 1e9 + (double)(to.tv_nsec - from.tv_nsec);
        if (taken < least)
            least = taken;
    }
    printf("C: %s %.0f ns (%zu lines, sum %zu)\n", name, least / (double)count, count, sum);
}

/* Reads the lines. Returns whether there is memory for them. */
static bool read_lines(void)
{
    char *line = NULL;
    size_t room = 0;
    while (count < MOST_LINES && getline(&line, &room, stdin) >= 0) {
        size_t length = strcspn(line, "\r\n");
        lines[count] = malloc(length + 1);
        if (lines[count] == NULL)
            return false;
        memcpy(lines[count], line, length);
        lengths[count++] = length;
        if (all_length + length + 1 > sizeof all)
            return false;
        memcpy(all + all_length, line, length);
        all_length += length;
        all[all_length++] = '\n';
    }
    free(line);
    return true;
}

int main(int words, char **names)
{
    const char *only = words > 1 ? names[1] : NULL;
    int status = 1;
    if (!read_lines())
        return 2;
    for (size_t i = 0; i < sizeof calls / sizeof *calls && count > 0; i++) {
        if (only != NULL && strcmp(only, calls[i].name) != 0)
            continue;
        print_time(calls[i].name, calls[i].call, only == NULL ? ROUNDS : 1);
        status = 0;
    }
    return status;
}
