/*
 * Structs that are smaller than the library's, as large, or larger, as those of a later release. Ends with status 0 where a
 * smaller one is left as it was, and of a larger one nothing but the known members is written.
 */
#include "cvss.h"

#include <stddef.h>
#include <stdio.h>
#include <string.h>

#define V4 "CVSS:4.0/AV:N/AC:L/AT:N/PR:N/UI:N/VC:L/VI:L/VA:L/SC:N/SI:N/SA:N/E:P"

/* The sizes and the offsets of members, on which the other languages rely. */
#define IS_AT(type, member, place) (offsetof(type, member) == (place))

enum { SPACE = 512 };

/* A struct in memory that is larger than it. */
typedef union Place {
    char bytes[SPACE];
    uint32_t size;
    CvssVector vector;
    CvssError error;
    CvssValues values;
    CvssNumbers numbers;
    CvssMatch match;
} Place;

/* Calls with a struct at a place. Each returns whether it succeeds. */
typedef bool (*Call)(Place *place);

static bool parse(Place *place)
{
    CvssError error = CVSS_ERROR_INIT;
    char buffer[SPACE];
    return cvss_parse(V4, strlen(V4), 0, &place->vector, &error, buffer, sizeof buffer) == strlen(V4)
        && memcmp(buffer, V4, strlen(V4)) == 0 && error.kind == CVSS_ACCEPTED;
}

/* The message is written without the struct, too. */
static bool is_message(const char *buffer, size_t returned)
{
    static const char message[] = "invalid CVSS metric group component: `x`";
    return returned == strlen(message) && memcmp(buffer, message, returned) == 0;
}

static bool parse_error(Place *place)
{
    CvssVector vector = {0};
    char buffer[SPACE];
    return is_message(buffer, cvss_parse("x", 1, 0, &vector, &place->error, buffer, sizeof buffer));
}

static bool with_metrics(Place *place)
{
    char buffer[SPACE];
    return is_message(buffer, cvss_with_metrics(V4, strlen(V4), "x", 1, 0, &place->error, buffer, sizeof buffer));
}

static bool from_metrics(Place *place)
{
    char buffer[SPACE];
    return is_message(buffer, cvss_from_metrics(20, "x", 1, 0, &place->error, buffer, sizeof buffer));
}

static bool without_not_defined(Place *place)
{
    char buffer[SPACE];
    return is_message(buffer, cvss_without_not_defined("x", 1, 0, &place->error, buffer, sizeof buffer));
}

static bool record(Place *place)
{
    char buffer[SPACE];
    return is_message(buffer, cvss_record("x", 1, 0, &place->error, buffer, sizeof buffer));
}

static bool explain(Place *place)
{
    char buffer[SPACE];
    return is_message(buffer, cvss_explain("x", 1, 0, &place->error, buffer, sizeof buffer));
}

static bool values(Place *place)
{
    return cvss_values(V4, strlen(V4), 0, &place->values);
}

static bool numbers(Place *place)
{
    return cvss_numbers(31, "AV:N", 4, &place->numbers);
}

static bool find(Place *place)
{
    if (place->size >= sizeof place->match)
        place->match.next = 0;
    return cvss_find(V4, strlen(V4), &place->match);
}

/* A call, the size of its struct, and whether it succeeds without the struct. */
static const struct { const char *name; Call call; size_t size; bool is_optional; } calls[] = {
    {"cvss_parse, vector", parse, sizeof(CvssVector), true},
    {"cvss_parse, error", parse_error, sizeof(CvssError), true},
    {"cvss_with_metrics", with_metrics, sizeof(CvssError), true},
    {"cvss_from_metrics", from_metrics, sizeof(CvssError), true},
    {"cvss_without_not_defined", without_not_defined, sizeof(CvssError), true},
    {"cvss_record", record, sizeof(CvssError), true},
    {"cvss_explain", explain, sizeof(CvssError), true},
    {"cvss_values", values, sizeof(CvssValues), false},
    {"cvss_numbers", numbers, sizeof(CvssNumbers), false},
    {"cvss_find", find, sizeof(CvssMatch), false},
};

/* A place that is filled, and says that its struct has this size. */
static Place filled(uint32_t size)
{
    Place place;
    memset(&place, 0x5a, sizeof place);
    place.size = size;
    return place;
}

/* Whether a smaller struct is left as it was. */
static bool is_left(Call call, uint32_t size, bool is_optional)
{
    Place place = filled(size), before = place;
    return call(&place) == is_optional && memcmp(&place, &before, sizeof place) == 0;
}

/* Whether the members of a struct are written as those of one that is just as large, and no byte after them. */
static bool is_filled(Call call, uint32_t size, size_t known)
{
    Place place = filled(size), before = place, exact = filled((uint32_t)known);
    return call(&place) && call(&exact) && place.size == size && memcmp(place.bytes + 4, exact.bytes + 4, known - 4) == 0
        && memcmp(place.bytes + 4, before.bytes + 4, known - 4) != 0
        && memcmp(place.bytes + known, before.bytes + known, sizeof place - known) == 0;
}

static bool is_laid_out(void)
{
    bool is = sizeof(CvssMetric) == 16 && sizeof(CvssNumber) == 16 && sizeof(CvssVector) == 64 && sizeof(CvssValues) == 272;
    is &= IS_AT(CvssVector, score, 8) && IS_AT(CvssVector, base, 16) && IS_AT(CvssVector, nomenclature, 40);
    is &= IS_AT(CvssVector, by_nomenclature, 44) && IS_AT(CvssVector, is_complete, 60) && IS_AT(CvssValues, fields, 16);
    is &= sizeof(CvssNumbers) == 64 && IS_AT(CvssNumbers, impact, 16) && IS_AT(CvssNumbers, adjusted_impact, 48);
    is &= IS_AT(CvssError, index, 8) && IS_AT(CvssError, metric, 16) && IS_AT(CvssError, quoted_start, 24);
    is &= sizeof(CvssError) == 24 + 2 * sizeof(size_t) && IS_AT(CvssMatch, next, sizeof(size_t));
    return is && sizeof(CvssMatch) == 4 * sizeof(size_t) && IS_AT(CvssMatch, length, 3 * sizeof(size_t));
}

int main(void)
{
    bool is_right = is_laid_out();
    for (size_t i = 0; i < sizeof calls / sizeof *calls; i++) {
        bool own = true;
        for (uint32_t size = 0; size < calls[i].size; size++)
            own = own && is_left(calls[i].call, size, calls[i].is_optional);
        for (uint32_t size = (uint32_t)calls[i].size; size <= SPACE; size++)
            own = own && is_filled(calls[i].call, size, calls[i].size);
        own = own && is_filled(calls[i].call, UINT32_MAX, calls[i].size);
        if (!own)
            printf("%s\n", calls[i].name);
        is_right &= own;
    }
    return is_right ? 0 : 1;
}
