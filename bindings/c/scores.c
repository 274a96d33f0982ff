/*
 * Which score is the vector's, the scores by nomenclature, and severities of bare scores. Ends with status 0 where each is as
 * it must be.
 */
#include "cvss.h"

#include <stdio.h>
#include <string.h>

#define V4 "CVSS:4.0/AV:N/AC:L/AT:N/PR:N/UI:N/VC:L/VI:L/VA:L/SC:N/SI:N/SA:N"
/* the environmental score is below the base score, since only its impact is at most 10 */
#define V2 "AV:L/AC:L/Au:N/C:C/I:C/A:C"
/* the environmental score is above the base score, by the other equation of v3.1 for a changed scope */
#define V31 "CVSS:3.1/AV:P/AC:H/PR:H/UI:R/S:C/C:H/I:H/A:H"

enum { NO = CVSS_NOTHING };

/* A vector, and the members of its facts from `score` to `by_nomenclature`; they are those of reference/. */
static const struct { const char *text; int32_t facts[13]; } rows[] = {
    {V2, {72, 3, 72, 3, 72, 3, 71, 3, NO, NO, NO, NO, NO}},
    /* no environmental metric is defined */
    {V2 "/TD:ND", {72, 3, 72, 3, 72, 3, 71, 3, NO, NO, NO, NO, NO}},
    {V2 "/E:ND/RL:ND/RC:ND/CDP:ND/TD:ND/CR:ND/IR:ND/AR:ND", {72, 3, 72, 3, 72, 3, 71, 3, NO, NO, NO, NO, NO}},
    {V2 "/E:U/TD:ND", {61, 2, 72, 3, 61, 2, 60, 2, NO, NO, NO, NO, NO}},
    {V2 "/CR:M", {71, 3, 72, 3, 72, 3, 71, 3, NO, NO, NO, NO, NO}},
    {V2 "/E:U/CR:M", {60, 2, 72, 3, 61, 2, 60, 2, NO, NO, NO, NO, NO}},
    {V31, {68, 2, 68, 2, 68, 2, 69, 2, NO, NO, NO, NO, NO}},
    {V31 "/E:X/MAV:X/CR:X", {68, 2, 68, 2, 68, 2, 69, 2, NO, NO, NO, NO, NO}},
    {V31 "/E:U/MAV:X", {62, 2, 68, 2, 62, 2, 63, 2, NO, NO, NO, NO, NO}},
    {V31 "/MAV:P", {69, 2, 68, 2, 68, 2, 69, 2, NO, NO, NO, NO, NO}},
    {V31 "/E:U/CR:M", {63, 2, 68, 2, 62, 2, 63, 2, NO, NO, NO, NO, NO}},
    {V4, {69, 2, 69, 2, NO, NO, NO, NO, CVSS_B, 69, 69, 69, 69}},
    {V4 "/E:U/MSI:S", {66, 2, 69, 2, NO, NO, NO, NO, CVSS_BTE, 69, 89, 27, 66}},
    {V4 "/E:X/S:P", {69, 2, 69, 2, NO, NO, NO, NO, CVSS_BT, 69, 69, 69, 69}},
};

static bool are_scored(const char *text, const int32_t facts[13])
{
    CvssVector vector = CVSS_VECTOR_INIT;
    CvssError error = CVSS_ERROR_INIT;
    cvss_parse(text, strlen(text), 0, &vector, &error, NULL, 0);
    bool right = error.kind == CVSS_ACCEPTED && memcmp(&vector.score, facts, 13 * sizeof *facts) == 0
        && cvss_score(text, strlen(text), 0) == facts[0] && vector.is_complete == 1;
    if (!right)
        printf("%s: %d\n", text, (int)vector.score);
    return right;
}

/* CVSS v3.1 specification, section 5; NVD's bounds for v2. */
static bool are_severities(void)
{
    bool right = cvss_severity(31, 98) == CVSS_CRITICAL && cvss_severity(20, 100) == CVSS_HIGH;
    right &= cvss_severity(20, 0) == CVSS_LOW;
    right &= cvss_severity(40, 0) == CVSS_NONE && cvss_severity(30, 69) == CVSS_MEDIUM && cvss_severity(40, 70) == CVSS_HIGH;
    right &= cvss_severity(40, 101) == CVSS_NOTHING && cvss_severity(40, -1) == CVSS_NOTHING;
    right &= cvss_severity(32, 50) == CVSS_NOTHING && cvss_severity(INT32_MIN, INT32_MAX) == CVSS_NOTHING;
    right &= strcmp(cvss_severity_name(CVSS_NONE), "none") == 0;
    right &= strcmp(cvss_severity_name(CVSS_CRITICAL), "critical") == 0;
    return right && cvss_severity_name(CVSS_NOTHING) == NULL && cvss_severity_name(5) == NULL;
}

int main(void)
{
    bool right = are_severities();
    for (size_t i = 0; i < sizeof rows / sizeof *rows; i++)
        right &= are_scored(rows[i].text, rows[i].facts);
    return right ? 0 : 1;
}
