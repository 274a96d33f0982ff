/*
 * Gives each line of standard input to each function in memory with pages around it that may not be touched: the text, which
 * may not be written either, right after one and right before one, and every buffer, array and struct right before one. Ends
 * by a signal where a byte outside is touched, and with status 1 where the place of a text changes what is written.
 */
#define _DEFAULT_SOURCE
#include "cvss.h"

#include <stdio.h>
#include <stdlib.h>
#include <string.h>
#include <sys/mman.h>
#include <sys/types.h>
#include <unistd.h>

static size_t page;

/* The first of so many bytes that end where a page begins that may not be touched; no more bytes than `most` may be asked for. */
typedef struct Room {
    char *end;
    size_t most;
} Room;

static Room room(size_t pages)
{
    char *begin = mmap(NULL, (pages + 2) * page, PROT_NONE, MAP_PRIVATE | MAP_ANONYMOUS, -1, 0);
    if (begin == MAP_FAILED || mprotect(begin + page, pages * page, PROT_READ | PROT_WRITE) != 0)
        exit(2);
    Room made = {begin + (pages + 1) * page, pages * page};
    return made;
}

static void *last(const Room *of, size_t count)
{
    if (count > of->most)
        exit(2);
    return of->end - count;
}

/* The pages of a text, and of a buffer. */
enum { PAGES = 8 };
static Room text_room, buffer_room, vector_room, error_room, values_room, numbers_room, match_room, metrics_room, tenths_room;

/* A function of a text that writes into a buffer. */
typedef size_t (*Call)(const char *text, size_t length, CvssError *error, void *buffer, size_t size);

static size_t parse(const char *text, size_t length, CvssError *error, void *buffer, size_t size)
{
    CvssVector *vector = last(&vector_room, sizeof *vector);
    vector->size = sizeof *vector;
    return cvss_parse(text, length, CVSS_ALLOW_INCOMPLETE, vector, error, buffer, size);
}

static size_t with_metrics(const char *text, size_t length, CvssError *error, void *buffer, size_t size)
{
    return cvss_with_metrics(text, length, "E:U", 3, 0, error, buffer, size);
}

/* The text as metrics. */
static size_t with_text(const char *text, size_t length, CvssError *error, void *buffer, size_t size)
{
    return cvss_with_metrics("CVSS:3.1/AV:N", 13, text, length, CVSS_ALLOW_INCOMPLETE, error, buffer, size);
}

static size_t from_metrics(const char *text, size_t length, CvssError *error, void *buffer, size_t size)
{
    return cvss_from_metrics(20, text, length, 0, error, buffer, size);
}

static size_t without(const char *text, size_t length, CvssError *error, void *buffer, size_t size)
{
    return cvss_without_not_defined(text, length, CVSS_ALLOW_INCOMPLETE, error, buffer, size);
}

static size_t record(const char *text, size_t length, CvssError *error, void *buffer, size_t size)
{
    return cvss_record(text, length, CVSS_ALLOW_INCOMPLETE, error, buffer, size);
}

static size_t explain(const char *text, size_t length, CvssError *error, void *buffer, size_t size)
{
    return cvss_explain(text, length, CVSS_ALLOW_INCOMPLETE, error, buffer, size);
}

static size_t score_line(const char *text, size_t length, CvssError *error, void *buffer, size_t size)
{
    error->kind = CVSS_ACCEPTED;
    return cvss_score_line(text, length, 0, buffer, size);
}

static const Call calls[] = {parse, with_metrics, with_text, from_metrics, without, record, explain, score_line};

/* Adds what the functions write for a text to a sum, which depends on each byte and its place. */
static uint64_t added(uint64_t sum, const void *bytes, size_t count)
{
    for (size_t i = 0; i < count; i++)
        sum = (sum ^ ((const unsigned char *)bytes)[i]) * UINT64_C(1099511628211);
    return sum;
}

/* Into a buffer that just fits, into one that lacks a byte, and into none. */
static uint64_t called(Call call, const char *text, size_t length, uint64_t sum)
{
    CvssError *error = last(&error_room, sizeof *error);
    error->size = sizeof *error;
    size_t needed = call(text, length, error, NULL, 0);
    char *buffer = last(&buffer_room, needed);
    call(text, length, error, buffer, needed);
    sum = added(sum, buffer, needed);
    if (needed > 0) {
        buffer = last(&buffer_room, needed - 1);
        call(text, length, error, buffer, needed - 1);
    }
    return added(sum, error, sizeof *error);
}

static uint64_t structs_filled(const char *text, size_t length, uint64_t sum)
{
    CvssValues *values = last(&values_room, sizeof *values);
    CvssNumbers *numbers = last(&numbers_room, sizeof *numbers);
    CvssMatch *match = last(&match_room, sizeof *match), none = CVSS_MATCH_INIT;
    int32_t *tenths = last(&tenths_room, sizeof *tenths);
    values->size = sizeof *values;
    numbers->size = sizeof *numbers;
    *match = none;
    sum += cvss_values(text, length, CVSS_ALLOW_INCOMPLETE, values) + cvss_numbers(20, text, length, numbers);
    sum = added(added(sum, values, sizeof *values), numbers, sizeof *numbers);
    while (cvss_find(text, length, match))
        sum = added(sum, &match->offset, sizeof match->offset);
    sum += cvss_temporal_with_impact(text, length, &numbers->impact, tenths) + cvss_rounded(31, &numbers->impact, tenths);
    size_t count = cvss_metrics(text, length, CVSS_ALLOW_INCOMPLETE, NULL, 0);
    CvssMetric *metrics = last(&metrics_room, count * sizeof *metrics);
    cvss_metrics(text, length, CVSS_ALLOW_INCOMPLETE, metrics, count);
    sum += (uint64_t)cvss_score(text, length, 0);
    return added(sum, metrics, count * sizeof *metrics);
}

/* The text as lines, of which one that no newline ends is not read. */
static uint64_t lines_written(const char *text, size_t length, uint64_t sum)
{
    size_t *read = last(&tenths_room, sizeof *read);
    size_t returned = cvss_score_lines(text, length, 0, last(&buffer_room, 1000), 1000, read);
    return added(added(sum, last(&buffer_room, 1000), returned), read, sizeof *read);
}

/* All that is written for a text at this place. */
static uint64_t written(const char *text, size_t length)
{
    uint64_t sum = 0;
    memset(last(&buffer_room, buffer_room.most), 0, buffer_room.most);
    for (size_t i = 0; i < sizeof calls / sizeof *calls; i++)
        sum = called(calls[i], text, length, sum);
    return lines_written(text, length, structs_filled(text, length, sum));
}

/* Whether a text gives the same at both ends of its room. */
static bool is_same(const char *line, size_t length)
{
    char *begin = text_room.end - text_room.most, *end = last(&text_room, length);
    uint64_t sums[2];
    for (int i = 0; i < 2; i++) {
        char *text = i == 0 ? begin : end;
        if (mprotect(begin, text_room.most, PROT_READ | PROT_WRITE) != 0)
            exit(2);
        memcpy(text, line, length);
        if (mprotect(begin, text_room.most, PROT_READ) != 0)
            exit(2);
        sums[i] = written(text, length);
    }
    return sums[0] == sums[1];
}

int main(void)
{
    Room *const small[] = {&vector_room, &error_room, &values_room, &numbers_room, &match_room, &metrics_room, &tenths_room};
    char *line = NULL;
    size_t size = 0, lines = 0;
    ssize_t count;
    bool is_right = true;
    page = (size_t)sysconf(_SC_PAGESIZE);
    for (size_t i = 0; i < sizeof small / sizeof *small; i++)
        *small[i] = room(1);
    buffer_room = room(PAGES);
    text_room = room(PAGES);
    while (is_right && (count = getline(&line, &size, stdin)) >= 0) {
        is_right = is_same(line, (size_t)count) && is_same(line, (size_t)count - (line[count - 1] == '\n'));
        lines++;
    }
    if (!is_right)
        printf("line %zu gives something else at another place\n", lines);
    free(line);
    return is_right && lines > 0 ? 0 : 1;
}
