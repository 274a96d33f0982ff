/*
 * Reads lines and prints, for each function of cvss.h, a sum over what it returns and writes for all of them. The same lines give the
 * same sums with each build of the library.
 */
#include "cvss.h"
#include <stdio.h>
#include <string.h>
#ifdef _WIN32
#include <fcntl.h>
#include <io.h>
#endif

enum { FUNCTIONS = 16, ROOM = 1 << 18 };
static uint64_t sums[FUNCTIONS];
static char line[ROOM], last[ROOM] = "E:X", buffer[ROOM];

static void add(int f, const void *bytes, size_t n)
{
    const unsigned char *each = bytes;
    size_t i;
    for (i = 0; i < n; i++)
        sums[f] = (sums[f] ^ each[i]) * 1099511628211u;
}

static void add_number(int f, int64_t x)
{
    char digits[32];
    add(f, digits, (size_t)sprintf(digits, "%lld;", (long long)x));
}

static void add_numbers(int f, const int32_t *numbers, int count)
{
    int i;
    for (i = 0; i < count; i++)
        add_number(f, numbers[i]);
}

/* The result, the buffer with some bytes after it, and the error. */
static void add_text(int f, size_t length, const CvssError *error)
{
    add_number(f, (int64_t)length);
    add(f, buffer, 2000);
    memset(buffer, '#', 2000);
    if (error) {
        add_numbers(f, &error->kind, 3);
        add(f, error->metric, sizeof error->metric);
        add_number(f, (int64_t)error->quoted_start);
        add_number(f, (int64_t)error->quoted_length);
    }
}

static void add_exact(int f, const CvssNumber *number)
{
    add_number(f, number->trillionths);
    add_number(f, number->rest);
}

static void ask(const char *t, size_t n, const char *m, size_t k, int version, uint32_t flags)
{
    static const CvssError new_error = CVSS_ERROR_INIT;
    CvssVector vector = CVSS_VECTOR_INIT;
    CvssError error = new_error;
    CvssMetric metrics[CVSS_MOST_METRICS];
    CvssValues values = CVSS_VALUES_INIT;
    CvssMatch match = CVSS_MATCH_INIT;
    CvssNumbers numbers = CVSS_NUMBERS_INIT;
    CvssNumber given;
    int32_t tenths = 77;
    size_t read = 0;
    add_text(0, cvss_parse(t, n, flags, &vector, &error, buffer, n % 7 ? ROOM : n / 2), &error);
    add_numbers(0, &vector.version, 15);
    add_number(1, cvss_score(t, n, flags));
    memset(metrics, 1, sizeof metrics);
    add_number(2, (int64_t)cvss_metrics(t, n, flags, metrics, n % 5 ? CVSS_MOST_METRICS : 11));
    add(2, metrics, sizeof metrics);
    add_number(3, cvss_values(t, n, flags, &values));
    add_numbers(3, &values.version, 3);
    add(3, values.fields, sizeof values.fields);
    add_text(4, cvss_with_metrics(t, n, m, k, flags, &error, buffer, ROOM), &error);
    add_text(5, cvss_from_metrics(version, m, k, flags, &error, buffer, ROOM), &error);
    add_text(6, cvss_without_not_defined(t, n, flags, &error, buffer, ROOM), &error);
    add_text(7, cvss_record(t, n, flags, &error, buffer, n % 3 ? ROOM : 1500), &error);
    add_text(8, cvss_explain(t, n, flags, &error, buffer, ROOM), &error);
    add_text(9, cvss_score_line(t, n, flags, buffer, n % 3 ? ROOM : 60), NULL);
    add_text(10, cvss_score_lines(line, n + 1, flags, buffer, n % 3 ? ROOM : 60, &read), NULL);
    add_number(10, (int64_t)read);
    while (cvss_find(t, n, &match)) {
        add_number(11, (int64_t)match.next);
        add_number(11, (int64_t)match.offset);
        add_number(11, (int64_t)match.length);
    }
    add_number(12, cvss_severity(version, (int32_t)n - 2));
    add_number(13, cvss_numbers(version, m, k, &numbers));
    add_numbers(13, &numbers.base, 3);
    add_exact(13, &numbers.impact);
    add_exact(13, &numbers.exploitability);
    add_exact(13, &numbers.adjusted_impact);
    given.trillionths = (int64_t)(sums[0] >> 3) % 20000000000000;
    given.rest = (int64_t)(sums[1] >> 3) % 1000000000000;
    if (n % 2) {
        /* where the score is cut, and the rest decides */
        given.trillionths -= given.trillionths % 50000000000;
        given.rest = (int64_t)n % 3 - 1;
    }
    add_number(14, cvss_rounded(version, &given, &tenths));
    add_number(14, tenths);
    add_number(15, cvss_temporal_with_impact(m, k, &given, &tenths));
    add_number(15, tenths);
}

int main(void)
{
    static const int versions[] = {20, 30, 31, 40, 99};
    uint64_t lines = 0;
    size_t last_length = 3, n = 0;
    int i;
#ifdef _WIN32
    _setmode(0, _O_BINARY);
    _setmode(1, _O_BINARY);
#endif
    for (i = 0; i < FUNCTIONS; i++)
        sums[i] = 14695981039346656037u;
    memset(buffer, '#', 2000);
    while ((i = getchar()) != EOF) {
        if (n == ROOM - 1)
            return 2;
        line[n++] = (char)i;
        if (i != '\n')
            continue;
        n--;
        /* metrics to set: the line before, without a prefix */
        i = last_length > 9 && !memcmp(last, "CVSS:", 5) ? 9 : 0;
        ask(line, n, last + i, last_length - (size_t)i, versions[lines % 5], lines % 2 ? CVSS_ALLOW_INCOMPLETE : 0);
        memcpy(last, line, n);
        last_length = n;
        n = 0;
        lines++;
    }
    printf("%llu lines\n", (unsigned long long)lines);
    for (i = 0; i < FUNCTIONS; i++)
        printf("%d %016llx\n", i, (unsigned long long)sums[i]);
    return 0;
}
