/*
 * CVSS vectors of v2, v3.0, v3.1 and v4.0: parse, normalize and score them.
 *
 * What is said here of each function is proved for every text, up to the call; docs/BINDINGS.md says what is trusted.
 * Link libcvss.a or libcvss.so, which bindings/build makes.
 *
 * Texts. A text is a pointer to its bytes and a length in bytes. It need not end with a byte 0, and the length counts
 * none. A text stays the caller's: it is not kept, changed or freed.
 *
 * Buffers. A result is written into a buffer of the caller, a pointer and a size in bytes. The function returns the
 * length of the whole result, whatever the size. If it is more than the size, the buffer is left as it was, and the caller
 * may call again with a larger one. No terminating byte 0 is written.
 *
 * Structs. The caller sets the member `size` of a struct to the size of the struct, as CVSS_VECTOR_INIT and the like do; no
 * function changes it. A later release may lengthen a struct; bytes after the members that the library has are not written.
 * A struct whose `size` is less than that of the struct below is left as it was, so 0 says that it is not wanted; then
 * cvss_values, cvss_numbers and cvss_find return false.
 *
 * Errors. A function with an argument `error` writes there whether the text is rejected, and why: `kind` is CVSS_ACCEPTED,
 * or what the function returns is the length of the message, which it writes into the buffer in place of a result.
 *
 * Flags. CVSS_ALLOW_INCOMPLETE, or 0: then a v3 vector that lacks a base metric is rejected. Other bits are ignored.
 *
 * Pointers. A text, a buffer or an array may be NULL if its length or size is 0: it is empty. A struct, `tenths` and `read`
 * may not be NULL. Output must not overlap input.
 *
 * Threads. The functions keep no state: any number of threads may call them at once, each with its own buffer and structs.
 *
 * Memory. No function allocates: the library calls neither malloc nor free.
 */
#ifndef CVSS_H
#define CVSS_H

#include <stdbool.h>
#include <stddef.h>
#include <stdint.h>

#ifdef __cplusplus
extern "C" {
#endif

/* The version of this library and header. */
#define CVSS_VERSION "2.0.0"

/* No version, no such score, no nomenclature or no index. */
#define CVSS_NOTHING (-1)

/* The severities. CVSS v2 has only CVSS_LOW to CVSS_HIGH. */
enum { CVSS_NONE = 0, CVSS_LOW = 1, CVSS_MEDIUM = 2, CVSS_HIGH = 3, CVSS_CRITICAL = 4 };

/* The name of a severity in lower case, such as "critical", a static string; NULL for any other number. */
static inline const char *cvss_severity_name(int32_t severity)
{
    static const char names[5][9] = {"none", "low", "medium", "high", "critical"};
    return severity >= CVSS_NONE && severity <= CVSS_CRITICAL ? names[severity] : NULL;
}

/* The groups of metrics that a v4.0 vector has: base, environmental, threat. They index `by_nomenclature`. */
enum { CVSS_B = 0, CVSS_BE = 1, CVSS_BT = 2, CVSS_BTE = 3 };

/* The kinds of errors: why a text is rejected. */
enum {
    CVSS_ACCEPTED = 0,            /* it is not */
    CVSS_INVALID_COMPONENT = 1,   /* a segment has no colon, or more than one */
    CVSS_INVALID_PREFIX = 2,      /* there is a version, but not after CVSS */
    CVSS_UNSUPPORTED_VERSION = 3, /* the version is none of 3.0, 3.1 and 4.0; of cvss_from_metrics, the number is none */
    CVSS_UNKNOWN_METRIC = 4,      /* the version has no metric of this name */
    CVSS_INVALID_VALUE = 5,       /* the metric has no such value */
    CVSS_DUPLICATE_METRIC = 6,    /* the metric is there twice */
    CVSS_MISSING_METRIC = 7,      /* the metric is mandatory, and missing */
    CVSS_NOT_UTF8 = 8             /* the text is not UTF-8 */
};

/*
 * Flags. CVSS_ALLOW_INCOMPLETE accepts v3 vectors that lack base metrics: a missing one weighs nothing, and `is_complete` is
 * 0. Vectors of v2 and v4.0 always have all base metrics.
 */
enum { CVSS_ALLOW_INCOMPLETE = 1 };

/*
 * The facts of a vector. A score is in tenths, 98 for 9.8: from 0 to 100, or CVSS_NOTHING if there is none. A severity is
 * from CVSS_NONE to CVSS_CRITICAL, or CVSS_NOTHING if there is no score.
 */
typedef struct CvssVector {
    uint32_t size;
    int32_t version;                /* 20, 30, 31 or 40 */
    /*
     * The score with all metrics in the vector: of v4.0 the score; of v2 and v3 the environmental score if an environmental
     * metric is defined (not X or ND), else the temporal score if a temporal metric is defined, else the base score.
     */
    int32_t score;
    int32_t severity;               /* of `score` */
    int32_t base;                   /* the base score; of v4.0 the score of CVSS-B, with the base metrics alone */
    int32_t base_severity;
    int32_t temporal;               /* of v4.0 CVSS_NOTHING */
    int32_t temporal_severity;
    int32_t environmental;          /* of v4.0 CVSS_NOTHING */
    int32_t environmental_severity;
    int32_t nomenclature;           /* of v4.0 CVSS_B to CVSS_BTE, by the metrics in the text; otherwise CVSS_NOTHING */
    /*
     * Of v4.0 the scores of CVSS-B, CVSS-BE, CVSS-BT and CVSS-BTE: with the base metrics alone, with base and environmental
     * metrics, with base and threat metrics, and with all of them, which is `score`. Otherwise CVSS_NOTHING.
     */
    int32_t by_nomenclature[4];
    int32_t is_complete;            /* 1 if all base metrics are present, otherwise 0 */
} CvssVector;

/*
 * Why a text is rejected. A message is in the encoding of the text, UTF-8, such as "invalid CVSSv3 AV (Attack Vector)
 * metric: `Q`"; of any other text it is "not UTF-8". It gives the first reason, in the order of the text.
 */
typedef struct CvssError {
    uint32_t size;
    int32_t kind;                   /* CVSS_INVALID_COMPONENT to CVSS_NOT_UTF8; CVSS_ACCEPTED if there is no error */
    /* Of cvss_with_metrics and cvss_from_metrics: which of the metrics is rejected, from 0. Otherwise CVSS_NOTHING. */
    int32_t index;
    int32_t reserved;               /* 0 */
    /* The abbreviation that the message names, filled up with bytes 0, of the kinds CVSS_INVALID_VALUE,
     * CVSS_DUPLICATE_METRIC and CVSS_MISSING_METRIC; otherwise bytes 0. */
    char metric[8];
    /*
     * Where in the message the part of the text begins that it quotes, and how long the part is: the segment without
     * exactly one colon, the prefix, the version, the unknown name, or the value that the metric does not have. The part is
     * as the message has it: in upper case if names and values are read in any case. It may be empty. Both are 0 if the
     * message quotes nothing: of the other kinds, and of a version that cvss_from_metrics does not know.
     */
    size_t quoted_start;
    size_t quoted_length;
} CvssError;

/*
 * A metric of a vector: its abbreviation, such as "MSI", and the spelling of its value, such as "S". Each field is
 * filled up with bytes 0, so it is a string: no abbreviation has more than 3 bytes, and no value more than 5.
 */
typedef struct CvssMetric {
    char name[8];
    char value[8];
} CvssMetric;

/* No vector has more metrics. */
enum { CVSS_MOST_METRICS = 32 };

/*
 * A vector as the values of its metrics. fields[i] is the spelling of the value of the metric that is at i in the canonical
 * order of the version, a string, filled up with bytes 0; it is empty if the vector lacks the metric. That order, from 0:
 *
 *   v2    AV AC Au C I A E RL RC CDP TD CR IR AR
 *   v3    AV AC PR UI S C I A E RL RC CR IR AR MAV MAC MPR MUI MS MC MI MA
 *   v4.0  AV AC AT PR UI VC VI VA SC SI SA E CR IR AR MAV MAC MAT MPR MUI MVC MVI MVA MSC MSI MSA S AU R V RE U
 */
typedef struct CvssValues {
    uint32_t size;
    int32_t version;                /* 20, 30, 31 or 40 */
    int32_t score;                  /* in tenths, as of cvss_score */
    int32_t nomenclature;           /* of v4.0 CVSS_B to CVSS_BTE; otherwise CVSS_NOTHING */
    char fields[CVSS_MOST_METRICS][8];
} CvssValues;

/*
 * An exact number: `trillionths` * 10^-12 + `rest` * 10^-24. The first is less than 10^18 from 0 and the second less than
 * 10^12, so the number is less than a million from 0.
 */
typedef struct CvssNumber {
    int64_t trillionths;
    int64_t rest;
} CvssNumber;

/*
 * The scores of a vector of v2 or v3, in tenths, and its sub-scores, which are exact. Most have at most 12 decimals, so that
 * `rest` is 0; the adjusted impact of v2 has up to 17.
 */
typedef struct CvssNumbers {
    uint32_t size;
    int32_t base;
    int32_t temporal;
    int32_t environmental;
    CvssNumber impact;              /* of v2 Impact, of v3 ISS, before the scope counts */
    CvssNumber exploitability;
    CvssNumber adjusted_impact;     /* of v2 AdjustedImpact, of v3 MISS */
} CvssNumbers;

/* A vector that is found in a text. */
typedef struct CvssMatch {
    uint32_t size;
    size_t next;                    /* where the next call goes on; 0 before the first */
    size_t offset;                  /* of the match's first byte in the text, from 0 */
    size_t length;                  /* of the match, in bytes */
} CvssMatch;

/* What each struct is set to before the first call: its size, and zeros. */
#define CVSS_VECTOR_INIT {sizeof(CvssVector), 0, 0, 0, 0, 0, 0, 0, 0, 0, 0, {0, 0, 0, 0}, 0}
#define CVSS_ERROR_INIT {sizeof(CvssError), 0, 0, 0, "", 0, 0}
#define CVSS_VALUES_INIT {sizeof(CvssValues), 0, 0, 0, {""}}
#define CVSS_NUMBERS_INIT {sizeof(CvssNumbers), 0, 0, 0, {0, 0}, {0, 0}, {0, 0}}
#define CVSS_MATCH_INIT {sizeof(CvssMatch), 0, 0, 0}

/*
 * Writes the canonical text of the vector and its facts, reading the text once. Returns the length of the canonical text,
 * which is `length`, so a buffer as long as the text is large enough for it; or that of the message. On an error `*vector` is
 * left as it was.
 *
 * Split at each '/', the canonical text is the list of the vector's metrics, of v3 and v4.0 after CVSS:3.0, CVSS:3.1 or
 * CVSS:4.0. Each segment is a name, a colon and a value; cvss_metrics writes these as pairs.
 */
size_t cvss_parse(const void *text, size_t length, uint32_t flags, CvssVector *vector, CvssError *error, void *buffer,
                  size_t size);

/* The score of the vector, as `score` of CvssVector, alone: in tenths; CVSS_NOTHING if the text is rejected. */
int32_t cvss_score(const void *text, size_t length, uint32_t flags);

/*
 * Returns the number of the vector's metrics, and writes them in the order of the canonical text if `count`, the
 * length of the array, is large enough; a smaller array is left as it was. Returns 0, and leaves the array as it was, if the
 * text is rejected.
 */
size_t cvss_metrics(const void *text, size_t length, uint32_t flags, CvssMetric *metrics, size_t count);

/* Returns whether the text is accepted, and then writes its values. Otherwise `*values` is left as it was. */
bool cvss_values(const void *text, size_t length, uint32_t flags, CvssValues *values);

/*
 * Writes the canonical text of a vector of any version with other metrics. They are components of any group joined by
 * '/', such as "E:A/MSI:S", in any order, each metric once, and in v3 and v4.0 in any ASCII case. They replace the vector's
 * values or are added. X and ND are values like others and remove nothing. An empty text has no metrics. The given vector may
 * lack base metrics; without CVSS_ALLOW_INCOMPLETE the new one may not. Returns the length of the canonical text, which is at
 * most `length` + `metrics_length` + 1; or that of the message.
 */
size_t cvss_with_metrics(const void *text, size_t length, const void *metrics, size_t metrics_length, uint32_t flags,
                         CvssError *error, void *buffer, size_t size);

/*
 * Writes the canonical text of the vector of a version, 20, 30, 31 or 40, with these metrics: components as of
 * cvss_with_metrics, in any order. An empty text is rejected as a component without a colon, of index 0. For any other
 * version the message is "unsupported CVSS version". Returns the length of the canonical text, which is at most
 * `metrics_length` + 9; or that of the message.
 */
size_t cvss_from_metrics(int32_t version, const void *metrics, size_t metrics_length, uint32_t flags, CvssError *error,
                         void *buffer, size_t size);

/*
 * Writes the canonical text without the metrics that are not defined (X, in v2 ND). It has the same scores, and
 * fits into a buffer as long as the text. If no metric is defined, which is possible in incomplete vectors, all are kept.
 * Returns its length; or that of the message. The nomenclature of v4.0 may change: it counts a metric that is given as X.
 */
size_t cvss_without_not_defined(const void *text, size_t length, uint32_t flags, CvssError *error, void *buffer, size_t size);

/*
 * Writes the record of the vector: the JSON object of FIRST's schema of its version, without spaces, with the
 * version, the canonical text, a member for each metric of the vector, its scores and, except for v2, their
 * severities, in the order of the members' names. Of v4.0 `baseScore` is the score with all metrics in the vector. Returns
 * its length; or that of the message.
 */
size_t cvss_record(const void *text, size_t length, uint32_t flags, CvssError *error, void *buffer, size_t size);

/*
 * Writes how the score is computed: a JSON object, without spaces, in the order of the members' names. For v2 and
 * v3 it has the weights, the sub-scores and the number before the rounding of each score; for v4.0 the values that
 * count, the MacroVector with its listed score, the share of each group of metrics in the mean that is subtracted from it,
 * and the number before the rounding. A decimal has at most seven places and is less than 10^-6 from the exact number; it is
 * exact if the number has no more places, except for v3 numbers with a changed scope, which have a power. Returns the length
 * of the object; or that of the message.
 */
size_t cvss_explain(const void *text, size_t length, uint32_t flags, CvssError *error, void *buffer, size_t size);

/*
 * Writes the line that `cvss score` prints for the text, without its newline: the canonical text, `score` and its
 * severity, such as "AV:N/AC:L/Au:N/C:N/I:N/A:C 7.8 high"; or "error: " and the message. Returns its length.
 */
size_t cvss_score_line(const void *text, size_t length, uint32_t flags, void *buffer, size_t size);

/*
 * Writes the lines of cvss_score_line for many texts in one call. Each text ends with a newline, with or without one carriage
 * return before it; each line ends with a newline. As many lines as fit are written one after another; the buffer
 * keeps its bytes after them. Returns their length, and writes into `*read` how many bytes of the texts they are for. The
 * caller goes on with the texts after these. If `*read` is 0 although there is a newline, the next line needs a larger
 * buffer. What follows the last newline is not read.
 */
size_t cvss_score_lines(const void *texts, size_t length, uint32_t flags, void *buffer, size_t size, size_t *read);

/*
 * Finds the next vector in any text: in a sentence, in parentheses, in a link, whatever its other bytes are. Returns whether
 * there is one, and then writes where it is, and into `next` where the call for the one after it goes on. Otherwise `*match`
 * is left as it was. So this loop finds all, in order, where `cvss find` finds them:
 *
 *   CvssMatch match = CVSS_MATCH_INIT;
 *   while (cvss_find(text, length, &match)) { .. }
 *
 * A run is a longest stretch of ASCII letters, digits, ':', '/', '.' and '%', and of backslashes before a '/'. It is split
 * before each prefix: "CVSS:", or a misspelled one such as "cvss:3.1/AV:", "CVSS3.1/AV:" or "CVSSv3.1/AV:", or a
 * percent-encoded one. A part ends before its first '%' or backslash if a '/' comes before that. Otherwise, if it begins with
 * a prefix or "AV", it ends before the first '%' that encodes neither ':' nor '/' if a '/', encoded or not, comes before that.
 * It is taken without the ':', '/', '.' and backslashes at its end; if it begins with no prefix, also without a label such as "vector:" or "7.5/" before "AV:". What is
 * left is a match if it is a valid vector; or if it was probably meant as one, and then cvss_parse says why it is none: it
 * begins with "CVSS:" and has a '/', or with another prefix; with "AV:" and has "/PR:" or "/UI:", as a vector of v3 or v4.0
 * without its prefix; or with "AV:" and has "/Au:" of which the ':' or the '/' is encoded. An encoded match is not decoded.
 * The next call goes on after the whole part. The bytes before `next` are not read: a run that it cuts begins there.
 */
bool cvss_find(const void *text, size_t length, CvssMatch *match);

/*
 * The severity (CVSS_NONE to CVSS_CRITICAL) of a score in tenths, by the bounds of a version, 20, 30, 31 or 40.
 * Returns CVSS_NOTHING for any other version, and for tenths outside 0 to 100.
 */
int32_t cvss_severity(int32_t version, int32_t tenths);

/*
 * The scores and sub-scores of the vector of a version, 20, 30 or 31, with these metrics: components as of cvss_with_metrics.
 * Any metric may be missing, and an empty text has none; a missing base metric weighs nothing. Returns false, and leaves
 * the struct as it was, where a metric is rejected, and for any other version.
 */
bool cvss_numbers(int32_t version, const void *metrics, size_t metrics_length, CvssNumbers *numbers);

/*
 * Rounds a number to tenths, as a version, 20, 30 or 31, rounds scores: v2 takes the nearest tenth, after adding 10^-6;
 * v3.0 the least tenth that is not below it; v3.1 does what its Appendix A says, and takes 0 for a number below 0.
 * Returns false, and leaves `*tenths` as it was, where a part of the number is out of its range, and for any other
 * version.
 */
bool cvss_rounded(int32_t version, const CvssNumber *number, int32_t *tenths);

/*
 * The temporal score, in tenths, of the vector of v2 with these metrics, as of cvss_numbers, and with this impact in
 * place of its own. It may be below 0. Returns false, and leaves `*tenths` as it was, where a metric is rejected or a part of
 * the impact is out of its range.
 */
bool cvss_temporal_with_impact(const void *metrics, size_t metrics_length, const CvssNumber *impact, int32_t *tenths);

#ifdef __cplusplus
}
#endif

#endif
