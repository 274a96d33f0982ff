/*
 * Counts the library's requests for memory over the lines of standard input, of which some are accepted and some
 * rejected: no function makes any. Ends with status 0 where that is so. Linked with
 * -Wl,--wrap=malloc,--wrap=calloc,--wrap=realloc,--wrap=free.
 */
#define _POSIX_C_SOURCE 200809L
#include "cvss.h"

#include <stdio.h>
#include <stdlib.h>
#include <sys/types.h>

/* how many requests for memory there were */
static unsigned long requests;

void *__real_malloc(size_t size);
void *__real_calloc(size_t count, size_t size);
void *__real_realloc(void *block, size_t size);
void __real_free(void *block);
void *__wrap_malloc(size_t size);
void *__wrap_calloc(size_t count, size_t size);
void *__wrap_realloc(void *block, size_t size);
void __wrap_free(void *block);

static void *counted(void *block)
{
    requests++;
    return block;
}

void *__wrap_malloc(size_t size)
{
    return counted(__real_malloc(size));
}

void *__wrap_calloc(size_t count, size_t size)
{
    return counted(__real_calloc(count, size));
}

void *__wrap_realloc(void *block, size_t size)
{
    return counted(__real_realloc(block, size));
}

void __wrap_free(void *block)
{
    requests += block != NULL;
    __real_free(block);
}

enum { MOST = 1 << 16 };
static char buffer[MOST];
static CvssError error = CVSS_ERROR_INIT;

/* A function of one text, and its name. */
typedef struct Call {
    const char *name;
    void (*make)(const char *text, size_t length);
} Call;

static void make_parse(const char *text, size_t length)
{
    CvssVector vector = CVSS_VECTOR_INIT;
    cvss_parse(text, length, CVSS_ALLOW_INCOMPLETE, &vector, &error, buffer, MOST);
}

static void make_score(const char *text, size_t length) { cvss_score(text, length, 0); }

static void make_metrics(const char *text, size_t length)
{
    CvssMetric metrics[CVSS_MOST_METRICS];
    cvss_metrics(text, length, CVSS_ALLOW_INCOMPLETE, metrics, CVSS_MOST_METRICS);
}

static void make_values(const char *text, size_t length)
{
    CvssValues values = CVSS_VALUES_INIT;
    cvss_values(text, length, CVSS_ALLOW_INCOMPLETE, &values);
}

static void make_with(const char *text, size_t length)
{
    cvss_with_metrics(text, length, "E:A/AV:N", 8, 0, &error, buffer, MOST);
    cvss_with_metrics(text, length, "/", 1, 0, &error, buffer, MOST);
}

static void make_from(const char *text, size_t length) { cvss_from_metrics(20, text, length, 0, &error, buffer, MOST); }
static void make_without(const char *text, size_t length) { cvss_without_not_defined(text, length, 1, &error, buffer, MOST); }
static void make_record(const char *text, size_t length) { cvss_record(text, length, 1, &error, buffer, MOST); }
static void make_explain(const char *text, size_t length) { cvss_explain(text, length, 1, &error, buffer, MOST); }
static void make_line(const char *text, size_t length) { cvss_score_line(text, length, 0, buffer, MOST); }

/* The text is followed by its newline. */
static void make_lines(const char *text, size_t length)
{
    size_t read;
    cvss_score_lines(text, length + 1, 0, buffer, MOST, &read);
}

static void make_find(const char *text, size_t length)
{
    CvssMatch match = CVSS_MATCH_INIT;
    while (cvss_find(text, length, &match))
        ;
}

static void make_severity(const char *text, size_t length) { cvss_severity(31, (int32_t)length + text[0]); }

static void make_numbers(const char *text, size_t length)
{
    CvssNumbers numbers = CVSS_NUMBERS_INIT;
    cvss_numbers(20, text, length, &numbers);
}

static void make_rounded(const char *text, size_t length)
{
    CvssNumber number = {(int64_t)length, text[0]};
    int32_t tenths;
    cvss_rounded(31, &number, &tenths);
}

static void make_temporal(const char *text, size_t length)
{
    CvssNumber impact = {0, 0};
    int32_t tenths;
    cvss_temporal_with_impact(text, length, &impact, &tenths);
}

static const Call calls[] = {
    {"cvss_parse", make_parse},         {"cvss_score", make_score},
    {"cvss_metrics", make_metrics},     {"cvss_values", make_values},
    {"cvss_with_metrics", make_with},   {"cvss_from_metrics", make_from},
    {"cvss_without_not_defined", make_without},
    {"cvss_record", make_record},       {"cvss_explain", make_explain},
    {"cvss_score_line", make_line},     {"cvss_score_lines", make_lines},
    {"cvss_find", make_find},           {"cvss_severity", make_severity},
    {"cvss_numbers", make_numbers},     {"cvss_rounded", make_rounded},
    {"cvss_temporal_with_impact", make_temporal},
};

/* Whether no function makes a request over a text, which a newline follows. */
static bool are_right(const char *text, size_t length)
{
    bool right = true;
    for (size_t i = 0; i < sizeof calls / sizeof *calls; i++) {
        requests = 0;
        calls[i].make(text, length);
        if (requests != 0) {
            printf("%s makes %lu requests for memory: %s", calls[i].name, requests, text);
            right = false;
        }
    }
    return right;
}

/* Whether requests are counted at all. */
static bool counts(void)
{
    void *volatile block = malloc(1);
    free(block);
    return requests == 2;
}

/* Whether none is made over the lines of standard input, of which some are accepted and some rejected. */
static bool are_counted(void)
{
    char *line = NULL;
    size_t room = 0, accepted = 0, rejected = 0;
    ssize_t count;
    bool right = counts();
    while ((count = getline(&line, &room, stdin)) > 0 && line[count - 1] == '\n') {
        bool is_accepted = cvss_metrics(line, (size_t)count - 1, 1, NULL, 0) > 0;
        right &= are_right(line, (size_t)count - 1);
        accepted += is_accepted;
        rejected += !is_accepted;
    }
    __real_free(line);
    right &= accepted > 0 && rejected > 0;
    printf("C: no request for memory over %zu accepted and %zu rejected texts\n", accepted, rejected);
    return right;
}

int main(void)
{
    return are_counted() && fflush(stdout) == 0 ? 0 : 1;
}
