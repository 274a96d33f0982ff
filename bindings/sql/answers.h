/*
 * What the functions of SQL return for a text, written once for SQLite and PostgreSQL over the functions of cvss.h.
 * docs/SQL.md says what each means. Each asks the library once.
 */
#ifndef CVSS_SQL_ANSWERS_H
#define CVSS_SQL_ANSWERS_H

#include "named.h"

/*
 * The arguments of a function: the first; the second if it has one, which otherwise is empty; and CVSS_ALLOW_INCOMPLETE
 * if v3 vectors may lack base metrics.
 */
typedef struct Question {
    Text text;
    Text second;
    uint32_t flags;
} Question;

/*
 * A function that returns a text. Writes it if the buffer has room for all of it, and returns its length either way; 0
 * is NULL.
 */
typedef size_t (*TextAnswer)(const Question *question, void *buffer, size_t size);

/* A function that returns a number: a score in tenths, or another. CVSS_NOTHING is NULL. */
typedef int32_t (*NumberAnswer)(const Question *question);

static inline size_t put_word(const char *word, void *buffer, size_t size)
{
    size_t length = word == NULL ? 0 : strlen(word);

    if (length > 0 && length <= size)
        memcpy(buffer, word, length);
    return length;
}

/* The scores and severities of the vector; if the text is rejected, each is CVSS_NOTHING. */
static inline CvssVector vector_of(const Question *question)
{
    CvssVector vector;
    CvssError error;

    memset(&vector, 0xff, sizeof vector);
    vector.size = sizeof vector;
    error.size = 0;
    cvss_parse(question->text.bytes, question->text.length, question->flags, &vector, &error, NULL, 0);
    return vector;
}

/*
 * The version, the score, the nomenclature and the values of the vector; if the text is rejected, the first three are
 * CVSS_NOTHING. The library computes no other score for them.
 */
static inline CvssValues values_of(const Question *question)
{
    CvssValues values;

    values.size = sizeof values;
    values.version = values.score = values.nomenclature = CVSS_NOTHING;
    cvss_values(question->text.bytes, question->text.length, question->flags, &values);
    return values;
}

static inline int32_t overall_score(const Question *question)
{
    return cvss_score(question->text.bytes, question->text.length, question->flags);
}

static inline int32_t base_score(const Question *question)
{
    return vector_of(question).base;
}

static inline int32_t temporal_score(const Question *question)
{
    return vector_of(question).temporal;
}

static inline int32_t environmental_score(const Question *question)
{
    return vector_of(question).environmental;
}

/* The severity of overall_score as a number, from 0 for none to 4 for critical. */
static inline int32_t severity_rank(const Question *question)
{
    CvssValues values = values_of(question);

    return cvss_severity(values.version, values.score);
}

/* 1 if all base metrics are present, 0 if not. To find that out, a vector may lack some. */
static inline int32_t is_complete(const Question *question)
{
    Question asked = {question->text, {"", 0}, CVSS_ALLOW_INCOMPLETE};

    return vector_of(&asked).is_complete;
}

static inline size_t put_version(const Question *question, void *buffer, size_t size)
{
    return put_word(cvss_version_name(values_of(question).version), buffer, size);
}

static inline size_t put_severity(const Question *question, void *buffer, size_t size)
{
    return put_word(cvss_severity_name(severity_rank(question)), buffer, size);
}

static inline size_t put_base_severity(const Question *question, void *buffer, size_t size)
{
    return put_word(cvss_severity_name(vector_of(question).base_severity), buffer, size);
}

static inline size_t put_temporal_severity(const Question *question, void *buffer, size_t size)
{
    return put_word(cvss_severity_name(vector_of(question).temporal_severity), buffer, size);
}

static inline size_t put_environmental_severity(const Question *question, void *buffer, size_t size)
{
    return put_word(cvss_severity_name(vector_of(question).environmental_severity), buffer, size);
}

static inline size_t put_nomenclature(const Question *question, void *buffer, size_t size)
{
    return put_word(cvss_nomenclature_name(values_of(question).nomenclature), buffer, size);
}

/* A metric of a vector: its type, and how the canonical text spells its value. */
typedef struct OwnMetric {
    const CvssMetricType *type;
    char value[8];
} OwnMetric;

/* The metric whose name, in any ASCII case, is the second argument. Returns whether the vector has it. */
static inline bool find_metric(const Question *question, OwnMetric *metric)
{
    CvssValues values = values_of(question);
    size_t count;

    metric->type = metric_type(values.version, &question->second);
    if (metric->type == NULL)
        return false;
    /* the fields have the order of the types */
    memcpy(metric->value, values.fields[metric->type - cvss_metric_types(values.version, &count)], sizeof metric->value);
    return metric->value[0] != '\0';
}

/*
 * The value of the metric whose name is the second argument. The caller rejects a name that is_metric_name does not know,
 * here and in the next two.
 */
static inline size_t put_metric(const Question *question, void *buffer, size_t size)
{
    OwnMetric metric;

    return find_metric(question, &metric) ? put_word(metric.value, buffer, size) : 0;
}

/* The name of the metric in words, if the vector has it. */
static inline size_t put_metric_title(const Question *question, void *buffer, size_t size)
{
    OwnMetric metric;

    return find_metric(question, &metric) ? put_word(metric.type->title, buffer, size) : 0;
}

/* The name in words of the value that the vector has for the metric. */
static inline size_t put_value_title(const Question *question, void *buffer, size_t size)
{
    OwnMetric metric;
    size_t i;

    if (!find_metric(question, &metric))
        return 0;
    for (i = 0; strcmp(metric.type->values[i].value, metric.value) != 0; i++)
        continue;
    return put_word(metric.type->values[i].title, buffer, size);
}

/* What a call of the library has written: its result, or nothing if it has written why it rejects its arguments. */
static inline size_t result_of(size_t length, const CvssError *error)
{
    return error->kind == CVSS_ACCEPTED ? length : 0;
}

/* Why a call of the library rejects its arguments; nothing if it does not. */
static inline size_t message_of(size_t length, const CvssError *error)
{
    return error->kind == CVSS_ACCEPTED ? 0 : length;
}

/* A function of the library that reads the first argument and writes a text. */
typedef size_t (*OfText)(const void *text, size_t length, uint32_t flags, CvssError *error, void *buffer, size_t size);

static inline size_t put_of_text(OfText call, const Question *question, void *buffer, size_t size)
{
    CvssError error = CVSS_ERROR_INIT;
    size_t length = call(question->text.bytes, question->text.length, question->flags, &error, buffer, size);

    return result_of(length, &error);
}

static inline size_t put_without_not_defined(const Question *question, void *buffer, size_t size)
{
    return put_of_text(cvss_without_not_defined, question, buffer, size);
}

static inline size_t put_record(const Question *question, void *buffer, size_t size)
{
    return put_of_text(cvss_record, question, buffer, size);
}

static inline size_t put_explanation(const Question *question, void *buffer, size_t size)
{
    return put_of_text(cvss_explain, question, buffer, size);
}

/* The canonical text or why the text is rejected, which the error says. */
static inline size_t put_parsed(const Question *question, CvssError *error, void *buffer, size_t size)
{
    CvssVector unwanted;

    unwanted.size = 0;
    return cvss_parse(question->text.bytes, question->text.length, question->flags, &unwanted, error, buffer, size);
}

static inline size_t put_canonical(const Question *question, void *buffer, size_t size)
{
    CvssError error = CVSS_ERROR_INIT;
    size_t length = put_parsed(question, &error, buffer, size);

    return result_of(length, &error);
}

static inline size_t put_error(const Question *question, void *buffer, size_t size)
{
    CvssError error = CVSS_ERROR_INIT;
    size_t length = put_parsed(question, &error, buffer, size);

    return message_of(length, &error);
}

/* The vector with the metrics in the second argument, or why it cannot be. */
static inline size_t put_changed(const Question *question, CvssError *error, void *buffer, size_t size)
{
    return cvss_with_metrics(question->text.bytes, question->text.length, question->second.bytes, question->second.length,
                             question->flags, error, buffer, size);
}

static inline size_t put_with_metrics(const Question *question, void *buffer, size_t size)
{
    CvssError error = CVSS_ERROR_INIT;
    size_t length = put_changed(question, &error, buffer, size);

    return result_of(length, &error);
}

static inline size_t put_with_metrics_error(const Question *question, void *buffer, size_t size)
{
    CvssError error = CVSS_ERROR_INIT;
    size_t length = put_changed(question, &error, buffer, size);

    return message_of(length, &error);
}

/* The vector of the version in the first argument with the metrics in the second, or why there is none. */
static inline size_t put_made(const Question *question, CvssError *error, void *buffer, size_t size)
{
    return cvss_from_metrics(version_number(&question->text), question->second.bytes, question->second.length,
                             question->flags, error, buffer, size);
}

static inline size_t put_from_metrics(const Question *question, void *buffer, size_t size)
{
    CvssError error = CVSS_ERROR_INIT;
    size_t length = put_made(question, &error, buffer, size);

    return result_of(length, &error);
}

/* Two texts, one after the other. */
static inline size_t put_both(const char *first, const Text *second, void *buffer, size_t size)
{
    size_t length = strlen(first) + second->length;

    if (length <= size) {
        put_word(first, buffer, size);
        memcpy((char *)buffer + strlen(first), second->bytes, second->length);
    }
    return length;
}

/* The library knows a version by its number alone, so an unknown name is quoted here, as the parser quotes it. */
static inline size_t put_from_metrics_error(const Question *question, void *buffer, size_t size)
{
    CvssError error = CVSS_ERROR_INIT;
    size_t length;

    if (version_number(&question->text) == CVSS_NOTHING)
        return put_both("unsupported CVSS version: ", &question->text, buffer, size);
    length = put_made(question, &error, buffer, size);
    return message_of(length, &error);
}

/* The v4.0 score by the nomenclature in the second argument. The caller rejects an unknown one. */
static inline int32_t nomenclature_score(const Question *question)
{
    return vector_of(question).by_nomenclature[nomenclature_number(&question->second)];
}

/* The severity of a score by the bounds of v3 and v4.0, and by those of the version that is the second argument. */
static inline size_t put_severity_of(const Question *question, void *buffer, size_t size)
{
    return put_word(cvss_severity_name(cvss_severity(40, tenths_of(&question->text))), buffer, size);
}

static inline size_t put_severity_by(const Question *question, void *buffer, size_t size)
{
    int32_t severity = cvss_severity(version_number(&question->second), tenths_of(&question->text));

    return put_word(cvss_severity_name(severity), buffer, size);
}

#endif
