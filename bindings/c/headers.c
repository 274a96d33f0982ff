/*
 * All that the headers define, which is C and C++. Both are included twice. Ends with status 0 where what structs are set to
 * before a call is their size, and zeros.
 */
#include "cvss.h"
#include "cvss.h"
#include "cvss_words.h"
#include "cvss_words.h"

#include <string.h>

/* Whether a struct has its size, and then bytes 0. */
static bool is_clear(const void *place, size_t size)
{
    const unsigned char *bytes = (const unsigned char *)place;
    uint32_t own;
    size_t i;
    bool is = true;
    memcpy(&own, bytes, sizeof own);
    for (i = sizeof own; i < size; i++)
        is = is && bytes[i] == 0;
    return is && own == size;
}

static const CvssVector vector = CVSS_VECTOR_INIT;
static const CvssError error = CVSS_ERROR_INIT;
static const CvssValues values = CVSS_VALUES_INIT;
static const CvssNumbers numbers = CVSS_NUMBERS_INIT;
static const CvssMatch match = CVSS_MATCH_INIT;

int main(void)
{
    CvssVector local = CVSS_VECTOR_INIT;
    size_t count;
    bool is = is_clear(&vector, sizeof vector) && is_clear(&error, sizeof error) && is_clear(&values, sizeof values);
    is = is && is_clear(&numbers, sizeof numbers) && is_clear(&match, sizeof match) && is_clear(&local, sizeof local);
    is = is && strlen(CVSS_VERSION) > 0 && CVSS_NOTHING == -1 && CVSS_ALLOW_INCOMPLETE == 1 && CVSS_MOST_METRICS == 32;
    is = is && strcmp(cvss_severity_name(CVSS_HIGH), "high") == 0 && strcmp(cvss_version_name(40), "4.0") == 0;
    is = is && strcmp(cvss_nomenclature_name(CVSS_BTE), "CVSS-BTE") == 0 && cvss_metric_types(40, &count) != NULL;
    return is && count == CVSS_MOST_METRICS ? 0 : 1;
}
