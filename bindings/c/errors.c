/*
 * What an error says in the one call that fails: its kind, the metric, the index and the part of the text that the message
 * quotes. Ends with status 0 where each error is as it must be, and no buffer that is too small is touched.
 */
#include "cvss.h"

#include <stdio.h>
#include <string.h>

#define V4 "CVSS:4.0/AV:N/AC:L/AT:N/PR:N/UI:N/VC:L/VI:L/VA:L/SC:N/SI:N/SA:N"
#define V31 "CVSS:3.1/AV:N/AC:L/PR:N/UI:N/S:U/C:H/I:H/A:H"
#define V2 "AV:N/AC:L/Au:N/C:N/I:N/A:C"

/* What is given; then the error, with the message before the part that it quotes, the part, and what follows that. */
typedef struct Row {
    const char *given;
    int32_t kind, index;
    const char *metric, *before, *quoted, *after;
} Row;

enum { ROOM = 400 };

/* Rejected texts. NULL is quoted where nothing is. */
static const Row texts[] = {
    {"", CVSS_INVALID_COMPONENT, -1, "", "invalid CVSS metric group component: `", "", "`"},
    {"x", CVSS_INVALID_COMPONENT, -1, "", "invalid CVSS metric group component: `", "x", "`"},
    {"AV:N:L/`", CVSS_INVALID_COMPONENT, -1, "", "invalid CVSS metric group component: `", "AV:N:L", "`"},
    {"CVSS:3.1/AV:N/`:`:", CVSS_INVALID_COMPONENT, -1, "", "invalid CVSS metric group component: `", "`:`:", "`"},
    {"Cvss:3.1/AV:N", CVSS_INVALID_PREFIX, -1, "", "invalid CVSS string prefix: `", "Cvss", "`"},
    {":3.1/AV:N", CVSS_INVALID_PREFIX, -1, "", "invalid CVSS string prefix: `", "", "`"},
    {"CVSS:9.9/AV:N", CVSS_UNSUPPORTED_VERSION, -1, "", "unsupported CVSS version: ", "9.9", ""},
    {"CVSS:./AV:N", CVSS_UNSUPPORTED_VERSION, -1, "", "unsupported CVSS version: ", ".", ""},
    {"CVSS:3.1/xx:n", CVSS_UNKNOWN_METRIC, -1, "", "unknown CVSS metric name: `", "XX", "`"},
    {"xx:n/AV:N", CVSS_UNKNOWN_METRIC, -1, "", "unknown CVSS metric name: `", "xx", "`"},
    {"CVSS:3.1/:n", CVSS_UNKNOWN_METRIC, -1, "", "unknown CVSS metric name: `", "", "`"},
    {"CVSS:3.1/AV:q", CVSS_INVALID_VALUE, -1, "AV", "invalid CVSSv3 AV (Attack Vector) metric: `", "Q", "`"},
    {"CVSS:3.1/MPR:`", CVSS_INVALID_VALUE, -1, "PR", "invalid CVSSv3 PR (Privileges Required) metric: `", "`", "`"},
    {"AV:/AC:L", CVSS_INVALID_VALUE, -1, "AV", "invalid CVSSv2 AV (Access Vector) metric: `", "", "`"},
    {V4 "/MSI:\xc3\xa9", CVSS_INVALID_VALUE, -1, "MSI",
     "invalid CVSSv4 MSI (Modified Integrity Impact to the Subsequent System) metric: `", "\xc3\xa9", "`"},
    {"CVSS:3.0/AV:N/av:n", CVSS_DUPLICATE_METRIC, -1, "AV", "duplicate CVSSv3 AV (Attack Vector) metric", NULL, ""},
    {V2 "/CDP:L/CDP:L", CVSS_DUPLICATE_METRIC, -1, "CDP", "duplicate CVSSv2 CDP (Collateral Damage Potential) metric", NULL, ""},
    {"AV:N/AC:L", CVSS_MISSING_METRIC, -1, "Au", "missing mandatory CVSSv2 Au (Authentication) metric", NULL, ""},
    {"CVSS:4.0/AV:N", CVSS_MISSING_METRIC, -1, "AC", "missing mandatory CVSSv4 AC (Attack Complexity) metric", NULL, ""},
    {"CVSS:3.1/AV:N/E:U", CVSS_MISSING_METRIC, -1, "AC", "missing mandatory CVSSv3 AC (Attack Complexity) metric", NULL, ""},
    {"CVSS:3.0/A:H/S:U", CVSS_MISSING_METRIC, -1, "AV", "missing mandatory CVSSv3 AV (Attack Vector) metric", NULL, ""},
    {"AV:\xff/AC:L", CVSS_NOT_UTF8, -1, "", "not UTF-8", NULL, ""},
};

/* Metrics that cannot be set in V4. */
static const Row set[] = {
    {"E:A/", CVSS_INVALID_COMPONENT, 1, "", "invalid CVSS metric group component: `", "", "`"},
    {"E:A/MSI:S/xx:n", CVSS_UNKNOWN_METRIC, 2, "", "unknown CVSS metric name: `", "XX", "`"},
    {"e:h", CVSS_INVALID_VALUE, 0, "E", "invalid CVSSv4 E (Exploit Maturity) metric: `", "H", "`"},
    {"E:A/MSI:S/e:p", CVSS_DUPLICATE_METRIC, 2, "E", "duplicate CVSSv4 E (Exploit Maturity) metric", NULL, ""},
    {"CR:L/IR:L/AR:L/MAV:P/MAC:H/MAT:P/MPR:H/MUI:A/MVC:N/MVI:N/MVA:N/MSC:N/MSI:N/MSA:N/CR:L/x", CVSS_DUPLICATE_METRIC, 14, "CR",
     "duplicate CVSSv4 CR (Confidentiality Requirements) metric", NULL, ""},
    {"E:\xff", CVSS_NOT_UTF8, -1, "", "not UTF-8", NULL, ""},
};

/* Metrics that make no vector of v3.1. */
static const Row made[] = {
    {"", CVSS_INVALID_COMPONENT, 0, "", "invalid CVSS metric group component: `", "", "`"},
    {"AV:N/av:n", CVSS_DUPLICATE_METRIC, 1, "AV", "duplicate CVSSv3 AV (Attack Vector) metric", NULL, ""},
    {"CVSS:3.1/AV:N", CVSS_UNKNOWN_METRIC, 0, "", "unknown CVSS metric name: `", "CVSS", "`"},
    {"A:H/I:H/C:H/S:U/PR:N/AC:L/AV:N", CVSS_MISSING_METRIC, -1, "UI", "missing mandatory CVSSv3 UI (User Interaction) metric", NULL,
     ""},
    {"E:\xff", CVSS_NOT_UTF8, -1, "", "not UTF-8", NULL, ""},
};

typedef size_t (*Call)(const char *given, size_t length, CvssError *error, char *buffer, size_t size);

static size_t parse(const char *given, size_t length, CvssError *error, char *buffer, size_t size)
{
    CvssVector vector = {0};
    return cvss_parse(given, length, 0, &vector, error, buffer, size);
}

static size_t without(const char *given, size_t length, CvssError *error, char *buffer, size_t size)
{
    return cvss_without_not_defined(given, length, 0, error, buffer, size);
}

static size_t record(const char *given, size_t length, CvssError *error, char *buffer, size_t size)
{
    return cvss_record(given, length, 0, error, buffer, size);
}

static size_t explain(const char *given, size_t length, CvssError *error, char *buffer, size_t size)
{
    return cvss_explain(given, length, 0, error, buffer, size);
}

static size_t keep(const char *given, size_t length, CvssError *error, char *buffer, size_t size)
{
    return cvss_with_metrics(given, length, NULL, 0, 0, error, buffer, size);
}

static size_t set_in_v4(const char *given, size_t length, CvssError *error, char *buffer, size_t size)
{
    return cvss_with_metrics(V4, strlen(V4), given, length, 0, error, buffer, size);
}

static size_t make_v31(const char *given, size_t length, CvssError *error, char *buffer, size_t size)
{
    return cvss_from_metrics(31, given, length, 0, error, buffer, size);
}

static size_t make_v32(const char *given, size_t length, CvssError *error, char *buffer, size_t size)
{
    return cvss_from_metrics(32, given, length, 0, error, buffer, size);
}

static bool is_error(const CvssError *error, const Row *row)
{
    size_t start = row->quoted == NULL ? 0 : strlen(row->before), length = row->quoted == NULL ? 0 : strlen(row->quoted);
    char metric[8] = "";
    strcpy(metric, row->metric);
    return error->size == sizeof *error && error->kind == row->kind && error->index == row->index && error->reserved == 0
        && memcmp(error->metric, metric, sizeof metric) == 0 && error->quoted_start == start && error->quoted_length == length;
}

/* Whether a call fails as the row says, also where the message does not fit, and then leaves the buffer as it was. */
static bool fails(Call call, const Row *row)
{
    char message[ROOM], buffer[ROOM] = "", small[ROOM] = "#";
    CvssError error, again;
    memset(&error, 0x5a, sizeof error);
    error.size = sizeof error;
    again = error;
    sprintf(message, "%s%s%s", row->before, row->quoted == NULL ? "" : row->quoted, row->after);
    size_t length = strlen(message), returned = call(row->given, strlen(row->given), &error, buffer, sizeof buffer);
    bool is_right = returned == length && strcmp(buffer, message) == 0 && is_error(&error, row)
        && call(row->given, strlen(row->given), &again, small, length - 1) == length && small[0] == '#' && is_error(&again, row);
    if (!is_right)
        printf("%s: %s\n", row->given, buffer);
    return is_right;
}

/* Whether an error that an earlier call has left is cleared where a text is accepted. */
static bool is_cleared(Call call, const char *given)
{
    static const Row none = {"", CVSS_ACCEPTED, -1, "", "", NULL, ""};
    char buffer[4 * ROOM];
    CvssError error;
    memset(&error, 0x5a, sizeof error);
    error.size = sizeof error;
    bool is_right = call(given, strlen(given), &error, buffer, sizeof buffer) > 0 && is_error(&error, &none);
    if (!is_right)
        printf("%s has an error\n", given);
    return is_right;
}

int main(void)
{
    static const Call of_text[] = {parse, without, record, explain, keep};
    static const Row no_version = {"AV:N", CVSS_UNSUPPORTED_VERSION, -1, "", "unsupported CVSS version", NULL, ""};
    bool is_right = fails(make_v32, &no_version);
    for (size_t i = 0; i < sizeof of_text / sizeof *of_text; i++) {
        for (size_t n = 0; n < sizeof texts / sizeof *texts; n++)
            is_right &= fails(of_text[i], &texts[n]);
        is_right &= is_cleared(of_text[i], V2) && is_cleared(of_text[i], V31) && is_cleared(of_text[i], V4);
    }
    for (size_t n = 0; n < sizeof set / sizeof *set; n++)
        is_right &= fails(set_in_v4, &set[n]);
    for (size_t n = 0; n < sizeof made / sizeof *made; n++)
        is_right &= fails(make_v31, &made[n]);
    is_right &= is_cleared(set_in_v4, "") && is_cleared(make_v31, "A:H/I:H/C:H/S:U/UI:N/PR:N/AC:L/AV:N");
    return is_right ? 0 : 1;
}
