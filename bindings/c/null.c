/* An empty text, and an empty buffer, may be NULL. Ends with status 0 where each function does what it must. */
#include "cvss.h"

#include <string.h>

static const char text[] = "AV:N/AC:L/Au:N/C:N/I:N/A:C";
static const char empty[] = "invalid CVSS metric group component: ``";
static const size_t length = sizeof text - 1;

typedef size_t (*Call)(const void *, size_t, uint32_t, CvssError *, void *, size_t);

/* Whether an empty text is rejected, and the length is returned without a buffer. */
static bool is_right(Call call, size_t least, size_t most)
{
    char buffer[80];
    CvssError error = CVSS_ERROR_INIT;
    size_t returned = call(NULL, 0, 0, &error, buffer, sizeof buffer);
    bool right = returned == strlen(empty) && memcmp(buffer, empty, returned) == 0 && error.kind == CVSS_INVALID_COMPONENT;
    right &= call(NULL, 0, 0, &error, NULL, 0) == returned && error.quoted_start == returned - 1 && error.quoted_length == 0;
    returned = call(text, length, 0, &error, NULL, 0);
    return right && least <= returned && returned <= most && error.kind == CVSS_ACCEPTED && error.quoted_start == 0;
}

static size_t parse(const void *given, size_t size, uint32_t flags, CvssError *error, void *buffer, size_t room)
{
    CvssVector vector = CVSS_VECTOR_INIT;
    return cvss_parse(given, size, flags, &vector, error, buffer, room);
}

static size_t with_metrics(const void *given, size_t size, uint32_t flags, CvssError *error, void *buffer, size_t room)
{
    return cvss_with_metrics(given, size, NULL, 0, flags, error, buffer, room);
}

static size_t from_metrics(const void *given, size_t size, uint32_t flags, CvssError *error, void *buffer, size_t room)
{
    return cvss_from_metrics(20, given, size, flags, error, buffer, room);
}

static bool are_calls_right(void)
{
    return is_right(parse, length, length) && is_right(with_metrics, length, length) && is_right(from_metrics, length, length)
        && is_right(cvss_without_not_defined, length, length) && is_right(cvss_record, 80, 4096)
        && is_right(cvss_explain, 80, 4096);
}

static bool are_metrics_right(void)
{
    CvssMetric metrics[6] = {{"", ""}};
    CvssValues values = CVSS_VALUES_INIT;
    values.version = 1;
    bool right = cvss_metrics(NULL, 0, 0, NULL, 0) == 0 && cvss_metrics(text, length, 0, NULL, 0) == 6;
    right &= cvss_metrics(text, length, 0, metrics, 5) == 6 && metrics[0].name[0] == '\0';
    right &= cvss_metrics(text, length, 0, metrics, 6) == 6 && strcmp(metrics[5].value, "C") == 0;
    right &= cvss_score(NULL, 0, 0) == CVSS_NOTHING && !cvss_values(NULL, 0, 0, &values) && values.version == 1;
    return right && cvss_score(text, length, 0) == 78 && cvss_values(text, length, 0, &values)
        && strcmp(values.fields[5], "C") == 0;
}

static bool are_lines_right(void)
{
    size_t read = 1;
    bool right = cvss_score_line(NULL, 0, 0, NULL, 0) == strlen("error: ") + strlen(empty);
    right &= cvss_score_line(text, length, 0, NULL, 0) == length + strlen(" 7.8 high");
    right &= cvss_score_lines(NULL, 0, 0, NULL, 0, &read) == 0 && read == 0;
    read = 1;
    return right && cvss_score_lines("x\n", 2, 0, NULL, 0, &read) == 0 && read == 0;
}

static bool are_numbers_right(void)
{
    CvssNumbers numbers = CVSS_NUMBERS_INIT;
    CvssNumber none = {0, 0};
    int32_t tenths = 1;
    numbers.base = 1;
    bool right = !cvss_numbers(40, NULL, 0, &numbers) && numbers.base == 1;
    right &= cvss_numbers(20, NULL, 0, &numbers) && numbers.size == sizeof numbers && numbers.base == 0;
    return right && cvss_temporal_with_impact(NULL, 0, &none, &tenths) && tenths == 0;
}

/* Whether no vector is found from a place on, and the match is left as it was. */
static bool finds_none(const char *given, size_t size, size_t next)
{
    CvssMatch match = {sizeof match, next, 7, 8};
    return !cvss_find(given, size, &match) && match.next == next && match.offset == 7 && match.length == 8;
}

int main(void)
{
    CvssMatch match = CVSS_MATCH_INIT;
    bool right = are_calls_right() && are_metrics_right() && are_lines_right() && are_numbers_right();
    right = right && finds_none(NULL, 0, 0) && finds_none(NULL, 0, 1) && finds_none(text, length, length)
        && finds_none(text, length, SIZE_MAX);
    right = right && cvss_find(text, length, &match) && match.offset == 0 && match.length == length && match.next == length;
    return right && !cvss_find(text, length, &match) ? 0 : 1;
}
