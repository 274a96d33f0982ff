/*
 * Vectors with other metrics, vectors of metrics, and flags. Ends with status 0 where each result is as it must be, and no
 * buffer that is too small is touched.
 */
#include "cvss.h"

#include <stdio.h>
#include <string.h>

#define V4 "CVSS:4.0/AV:N/AC:L/AT:N/PR:N/UI:N/VC:L/VI:L/VA:L/SC:N/SI:N/SA:N"
#define V31 "CVSS:3.1/AV:N/AC:L/PR:N/UI:N/S:U/C:H/I:H/A:H"
#define V2 "AV:N/AC:L/Au:N/C:N/I:N/A:C"
#define NO_AC "missing mandatory CVSSv3 AC (Attack Complexity) metric"

/* Flags, a vector, metrics, and the canonical text with them, or the message. */
typedef struct Set {
    uint32_t flags;
    const char *text, *metrics, *expected;
    int32_t kind;
} Set;

static const Set set[] = {
    {0, V4, "", V4, 0},
    {0, V4 "/CR:H/S:P", "E:A/msi:s", V4 "/E:A/CR:H/MSI:S/S:P", 0},
    {0, V4 "/E:U", "e:x/u:red", V4 "/E:X/U:Red", 0},
    {0, V4 "/CR:H/S:P", "msa:n/cr:l", V4 "/CR:L/MSA:N/S:P", 0},
    {0, V4 "/CR:H/S:P", "CR:L/IR:L/AR:L/MAV:P/MAC:H/MAT:P/MPR:H/MUI:A/MVC:N/MVI:N/MVA:N/MSC:N/MSI:N/MSA:N",
     V4 "/CR:L/IR:L/AR:L/MAV:P/MAC:H/MAT:P/MPR:H/MUI:A/MVC:N/MVI:N/MVA:N/MSC:N/MSI:N/MSA:N/S:P", 0},
    {0, V4, "MSI:S/AV:P", "CVSS:4.0/AV:P/AC:L/AT:N/PR:N/UI:N/VC:L/VI:L/VA:L/SC:N/SI:N/SA:N/MSI:S", 0},
    {0, V31, "AV:P/E:U/MC:X", "CVSS:3.1/AV:P/AC:L/PR:N/UI:N/S:U/C:H/I:H/A:H/E:U/MC:X", 0},
    {0, V2, "A:N/TD:L/E:ND", "AV:N/AC:L/Au:N/C:N/I:N/A:N/E:ND/TD:L", 0},
    /* the new vector has to be complete, and not the given one */
    {0, "CVSS:3.0/AV:N", "ac:h", "missing mandatory CVSSv3 PR (Privileges Required) metric", CVSS_MISSING_METRIC},
    {0, "CVSS:3.0/AV:N", "", NO_AC, CVSS_MISSING_METRIC},
    {1, "CVSS:3.0/AV:N", "ac:h", "CVSS:3.0/AV:N/AC:H", 0},
    {1, "CVSS:3.0/AV:N", "", "CVSS:3.0/AV:N", 0},
    {0, "CVSS:3.1/E:U", "A:H/I:H/C:H/S:U/UI:N/PR:N/AC:L/AV:N", V31 "/E:U", 0},
    {0, "CVSS:4.0/AV:N", "E:A", "missing mandatory CVSSv4 AC (Attack Complexity) metric", CVSS_MISSING_METRIC},
    {1, "CVSS:4.0/AV:N", "E:A", "missing mandatory CVSSv4 AC (Attack Complexity) metric", CVSS_MISSING_METRIC},
    {0, "x", "E:A", "invalid CVSS metric group component: `x`", CVSS_INVALID_COMPONENT},
    {0, "x", "\xff", "invalid CVSS metric group component: `x`", CVSS_INVALID_COMPONENT},
    {0, V2, "e:H", "unknown CVSS metric name: `e`", CVSS_UNKNOWN_METRIC},
    /* a rejected metric comes before a missing one */
    {0, "CVSS:3.0/AV:N", "E:Q", "invalid CVSSv3 E (Exploit Code Maturity) metric: `Q`", CVSS_INVALID_VALUE},
};

/* Flags, a version, metrics, and the canonical text of their vector, or the message. */
typedef struct Made {
    uint32_t flags;
    int32_t version;
    const char *metrics, *expected;
    int32_t kind;
} Made;

static const Made made[] = {
    {0, 20, "A:C/I:N/C:N/Au:N/AC:L/AV:N", V2, 0},
    {0, 31, "A:H/I:H/C:H/S:U/UI:N/PR:N/AC:L/AV:N", V31, 0},
    {0, 30, "av:n", "missing mandatory CVSSv3 AC (Attack Complexity) metric", CVSS_MISSING_METRIC},
    {1, 30, "av:n", "CVSS:3.0/AV:N", 0},
    {0, 40, "E:P/sa:n/si:n/sc:n/va:l/vi:l/vc:l/ui:n/pr:n/at:n/ac:l/av:n", V4 "/E:P", 0},
    {1, 40, "AV:N/AC:L", "missing mandatory CVSSv4 AT (Attack Requirements) metric", CVSS_MISSING_METRIC},
    {1, 20, "AV:N/AC:L", "missing mandatory CVSSv2 Au (Authentication) metric", CVSS_MISSING_METRIC},
    {0, 20, "E:\xff", "not UTF-8", CVSS_NOT_UTF8},
    {0, 21, "AV:N", "unsupported CVSS version", CVSS_UNSUPPORTED_VERSION},
    {1, CVSS_NOTHING, "\xff", "unsupported CVSS version", CVSS_UNSUPPORTED_VERSION},
    {1, INT32_MIN, "", "unsupported CVSS version", CVSS_UNSUPPORTED_VERSION},
};

/* What a call has written, and what it has left in a buffer that is too small by a byte. */
typedef struct Written {
    char buffer[400], small[400];
    size_t returned, again;
    CvssError error;
} Written;

static bool is_written(const Written *own, const char *expected, int32_t kind)
{
    size_t length = strlen(expected);
    bool right = own->returned == length && strcmp(own->buffer, expected) == 0 && own->again == length && own->small[0] == '#'
        && own->error.kind == kind;
    if (!right)
        printf("%s, and not %s\n", own->buffer, expected);
    return right;
}

static bool is_set(const Set *row, uint32_t flags)
{
    Written own = {"", "#", 0, 0, CVSS_ERROR_INIT};
    size_t length = strlen(row->text), count = strlen(row->metrics), least = strlen(row->expected) - 1;
    own.again = cvss_with_metrics(row->text, length, row->metrics, count, flags, &own.error, own.small, least);
    own.returned = cvss_with_metrics(row->text, length, row->metrics, count, flags, &own.error, own.buffer, sizeof own.buffer);
    return is_written(&own, row->expected, row->kind);
}

static bool is_made(const Made *row, uint32_t flags)
{
    Written own = {"", "#", 0, 0, CVSS_ERROR_INIT};
    size_t count = strlen(row->metrics), least = strlen(row->expected) - 1;
    own.again = cvss_from_metrics(row->version, row->metrics, count, flags, &own.error, own.small, least);
    own.returned = cvss_from_metrics(row->version, row->metrics, count, flags, &own.error, own.buffer, sizeof own.buffer);
    return is_written(&own, row->expected, row->kind);
}

/* The flags with each other bit, which is ignored. */
static bool for_all_bits(uint32_t flags, bool (*is_right)(uint32_t))
{
    bool right = is_right(flags) && is_right(flags | ~UINT32_C(1));
    for (int bit = 1; bit < 32; bit++)
        right &= is_right(flags | UINT32_C(1) << bit);
    return right;
}

static bool rows_hold(uint32_t flags)
{
    bool right = true;
    for (size_t i = 0; i < sizeof set / sizeof *set; i++)
        right &= set[i].flags != (flags & 1) || is_set(&set[i], flags);
    for (size_t i = 0; i < sizeof made / sizeof *made; i++)
        right &= made[i].flags != (flags & 1) || is_made(&made[i], flags);
    return right;
}

/* An incomplete vector, for each function of a text: accepted exactly with the flag. */
static bool is_as_flagged(uint32_t flags)
{
    static const char text[] = "CVSS:3.1/AV:N/E:U", line[] = "CVSS:3.1/AV:N/E:U\n";
    size_t length = strlen(text), read;
    CvssVector vector = CVSS_VECTOR_INIT;
    CvssValues values = CVSS_VALUES_INIT;
    CvssError errors[4] = {CVSS_ERROR_INIT, CVSS_ERROR_INIT, CVSS_ERROR_INIT, CVSS_ERROR_INIT};
    char own[400] = "", many[400] = "";
    bool allows = (flags & CVSS_ALLOW_INCOMPLETE) != 0, right = true;
    cvss_parse(text, length, flags, &vector, &errors[0], NULL, 0);
    cvss_without_not_defined(text, length, flags, &errors[1], NULL, 0);
    cvss_record(text, length, flags, &errors[2], NULL, 0);
    cvss_explain(text, length, flags, &errors[3], NULL, 0);
    for (size_t i = 0; i < 4; i++)
        right &= errors[i].kind == (allows ? CVSS_ACCEPTED : CVSS_MISSING_METRIC) && (errors[i].metric[0] == 'A') == !allows;
    right &= vector.version == (allows ? 31 : 0) && cvss_score(text, length, flags) == (allows ? 0 : CVSS_NOTHING);
    right &= cvss_values(text, length, flags, &values) == allows;
    right &= cvss_metrics(text, length, flags, NULL, 0) == (allows ? 2 : 0);
    cvss_score_line(text, length, flags, own, sizeof own);
    right &= strcmp(own, allows ? "CVSS:3.1/AV:N/E:U 0.0 none" : "error: " NO_AC) == 0;
    return right && cvss_score_lines(line, strlen(line), flags, many, sizeof many, &read) == strlen(own) + 1
        && read == strlen(line) && memcmp(many, own, strlen(own)) == 0;
}

int main(void)
{
    return for_all_bits(0, rows_hold) && for_all_bits(CVSS_ALLOW_INCOMPLETE, rows_hold) && for_all_bits(0, is_as_flagged)
                   && for_all_bits(CVSS_ALLOW_INCOMPLETE, is_as_flagged)
               ? 0
               : 1;
}
