/*
 * Scores and sub-scores of vectors that need not be complete, numbers that are rounded, and temporal scores with another
 * impact. Ends with status 0 where each number is as it must be, and nothing is written beside false.
 */
#include "cvss.h"

#include <stdio.h>
#include <string.h>

#define MILLION INT64_C(1000000000000000000)
#define TRILLION INT64_C(1000000000000)

/* A version, metrics, three scores in tenths, and three sub-scores in 10^-12 with what the last has in 10^-24. */
typedef struct Row {
    int32_t version;
    const char *metrics;
    int32_t base, temporal, environmental;
    int64_t impact, exploitability, adjusted_impact, rest;
} Row;

static const Row rows[] = {
    {20, "AV:N/AC:L/Au:N/C:P/I:P/A:P", 75, 75, 75, 6442976718750, 9996800000000, 6442976718750, 0},
    {20, "", 0, 0, 0, 0, 0, 0, 0},
    {20, "C:P/I:P/A:P", 28, 28, 28, 6442976718750, 0, 6442976718750, 0},
    /* 10.41 * (1 - (1 - 0.275 * 1.51)^3) has 17 decimals */
    {20, "CR:H/AR:H/IR:H/C:P/I:P/A:P", 28, 28, 41, 6442976718750, 0, 8328571863753, 281250000000},
    {30, "", 0, 0, 0, 0, 0, 0, 0},
    {31, "av:n/ac:l/pr:n/ui:n/s:u/c:h/i:h/a:h", 98, 98, 98, 914816000000, 3887042775000, 914816000000, 0},
    {31, "C:H/CR:H/E:U", 36, 33, 50, 560000000000, 0, 840000000000, 0},
};

/* A version, metrics that are rejected or none of its own, and nothing else. */
static const Row wrong[] = {
    {20, "AV:Q", 0, 0, 0, 0, 0, 0, 0}, {20, "av:n", 0, 0, 0, 0, 0, 0, 0}, {31, "AV:N/AV:N", 0, 0, 0, 0, 0, 0, 0},
    {31, "/", 0, 0, 0, 0, 0, 0, 0}, {30, "E:\xff", 0, 0, 0, 0, 0, 0, 0}, {40, "AV:N", 0, 0, 0, 0, 0, 0, 0},
};

/* A version, a number, and the tenths of its rounding. */
static const struct { int32_t version; CvssNumber number; int32_t tenths; } rounded[] = {
    {20, {8549998999999, 0}, 85}, {20, {8549999000000, 0}, 86}, {20, {8549998999999, TRILLION - 1}, 85},
    {20, {-50001000000, 0}, -1}, {20, {-50001000000, 1}, 0}, {20, {MILLION - 1, TRILLION - 1}, 10000000},
    {30, {4000000000000, 0}, 40}, {30, {4000000000000, 1}, 41}, {30, {-1, 0}, 0}, {30, {-100000000000, 0}, -1},
    {31, {4000004999999, TRILLION - 1}, 40}, {31, {4000005000000, 0}, 41}, {31, {-9000000000000, 0}, 0},
};

static bool is_number(CvssNumber number, int64_t trillionths, int64_t rest)
{
    return number.trillionths == trillionths && number.rest == rest;
}

static bool has_numbers(const Row *row)
{
    CvssNumbers numbers;
    memset(&numbers, '#', sizeof numbers);
    numbers.size = sizeof numbers;
    bool right = cvss_numbers(row->version, row->metrics, strlen(row->metrics), &numbers) && numbers.base == row->base;
    right = right && numbers.temporal == row->temporal && numbers.environmental == row->environmental;
    right = right && numbers.size == sizeof numbers && is_number(numbers.impact, row->impact, 0);
    right = right && is_number(numbers.exploitability, row->exploitability, 0);
    return right && is_number(numbers.adjusted_impact, row->adjusted_impact, row->rest);
}

static bool is_rejected(const Row *row)
{
    CvssNumbers numbers, old;
    memset(&numbers, '#', sizeof numbers);
    numbers.size = sizeof numbers;
    old = numbers;
    return !cvss_numbers(row->version, row->metrics, strlen(row->metrics), &numbers) && !memcmp(&numbers, &old, sizeof old);
}

static bool is_unrounded(int32_t version, int64_t trillionths, int64_t rest)
{
    CvssNumber number = {trillionths, rest};
    int32_t tenths = 7;
    return !cvss_rounded(version, &number, &tenths) && tenths == 7;
}

/* The temporal score with an impact, or 1000000 where there is none. */
static int32_t temporal(const char *metrics, int64_t trillionths)
{
    CvssNumber impact = {trillionths, 0};
    int32_t tenths = 1000000;
    cvss_temporal_with_impact(metrics, strlen(metrics), &impact, &tenths);
    return tenths;
}

int main(void)
{
    bool right = true;
    for (size_t n = 0; n < sizeof rows / sizeof *rows; n++)
        right &= has_numbers(&rows[n]) || (printf("%s\n", rows[n].metrics), false);
    for (size_t n = 0; n < sizeof wrong / sizeof *wrong; n++)
        right &= is_rejected(&wrong[n]) || (printf("%s\n", wrong[n].metrics), false);
    for (size_t n = 0; n < sizeof rounded / sizeof *rounded; n++) {
        int32_t tenths;
        bool is = cvss_rounded(rounded[n].version, &rounded[n].number, &tenths) && tenths == rounded[n].tenths;
        right &= is || (printf("rounded %zu\n", n), false);
    }
    right &= is_unrounded(40, 0, 0) && is_unrounded(20, MILLION, 0) && is_unrounded(30, 0, TRILLION);
    right &= is_unrounded(31, -MILLION, 0) && is_unrounded(31, 0, -TRILLION);
    right &= temporal("AV:N/AC:L/Au:N/E:U", 10000000000000) == 85 && temporal("", 0) == 0;
    /* (0.6 - 1.5) * 1.176 = -1.0584, which is -1.1 */
    right &= temporal("", 1000000000000) == -11 && temporal("AV:Q", 0) == 1000000 && temporal("", MILLION) == 1000000;
    return right ? 0 : 1;
}
