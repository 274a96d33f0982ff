/*
 * CVSS in SQL: an extension that SQLite loads, `.load ./cvss`. docs/SQL.md says what each function returns, and
 * bindings/sql/answers.h how.
 *
 * A text is what its bytes are, and so is a blob; a number is read as it is printed. For NULL a function returns NULL.
 * The functions keep nothing between calls, so that any number of threads may use them, each with its own connection.
 */
#include "argument.h"

SQLITE_EXTENSION_INIT1

/* Newer releases require a flag for a function that marks its texts as JSON. */
#ifndef SQLITE_RESULT_SUBTYPE
#define SQLITE_RESULT_SUBTYPE 0
#endif

/* The mark of texts that the JSON functions of SQLite take for JSON, and not for strings. */
enum { JSON_SUBTYPE = 'J' };

typedef struct Function {
    const char *name;
    void (*call)(sqlite3_context *, int, sqlite3_value **);
    TextAnswer text;
    NumberAnswer number;
    int texts; /* the number of its arguments before `allow_incomplete` */
    bool reads_vector; /* so it may have the argument `allow_incomplete` */
    bool is_json;
} Function;

/* The bytes of an argument. False if it is NULL, or if there is no memory for its bytes, which is reported. */
static bool read_text(sqlite3_context *context, sqlite3_value *value, Text *text)
{
    int status = cvss_read_value(value, text);
    if (status == SQLITE_NOMEM)
        sqlite3_result_error_nomem(context);
    return status == SQLITE_OK;
}

static bool read_flags(sqlite3_context *context, sqlite3_value *value, uint32_t *flags)
{
    int status = cvss_read_flags(value, flags);
    if (status == SQLITE_MISMATCH)
        sqlite3_result_error(context, cvss_no_flag, -1);
    return status == SQLITE_OK;
}

static bool read_question(sqlite3_context *context, int count, sqlite3_value **values, Question *question)
{
    int texts = ((const Function *)sqlite3_user_data(context))->texts;
    *question = (Question){{"", 0}, {"", 0}, 0};
    return read_text(context, values[0], &question->text)
           && (texts == 1 || read_text(context, values[1], &question->second))
           && (count == texts || read_flags(context, values[texts], &question->flags));
}

/* Returns a text. Most have room in the first buffer. */
static void return_text(sqlite3_context *context, const Question *question)
{
    const Function *function = sqlite3_user_data(context);
    char first[2000];
    char *text = first;
    size_t size = sizeof first;
    size_t length = function->text(question, first, size);
    if (length > size) {
        size = length;
        text = sqlite3_malloc64(size);
        if (text == NULL) {
            sqlite3_result_error_nomem(context);
            return;
        }
        length = function->text(question, text, size);
    }
    if (length > 0)
        sqlite3_result_text64(context, text, length, SQLITE_TRANSIENT, SQLITE_UTF8);
    if (length > 0 && function->is_json)
        sqlite3_result_subtype(context, JSON_SUBTYPE);
    if (text != first)
        sqlite3_free(text);
}

static void answer_text(sqlite3_context *context, int count, sqlite3_value **values)
{
    Question question;
    if (read_question(context, count, values, &question))
        return_text(context, &question);
}

static void return_score(sqlite3_context *context, const Question *question)
{
    int32_t tenths = ((const Function *)sqlite3_user_data(context))->number(question);
    if (tenths != CVSS_NOTHING)
        sqlite3_result_double(context, tenths / 10.0);
}

static void answer_score(sqlite3_context *context, int count, sqlite3_value **values)
{
    Question question;
    if (read_question(context, count, values, &question))
        return_score(context, &question);
}

static void answer_number(sqlite3_context *context, int count, sqlite3_value **values)
{
    const Function *function = sqlite3_user_data(context);
    Question question;
    if (!read_question(context, count, values, &question))
        return;
    int32_t number = function->number(&question);
    if (number != CVSS_NOTHING)
        sqlite3_result_int(context, number);
}

/* An unknown name is an error: it is a mistake in the query, and not in a row. */
static void answer_named(sqlite3_context *context, int count, sqlite3_value **values)
{
    const Function *function = sqlite3_user_data(context);
    bool is_score = function->number != NULL;
    Question question;
    if (!read_question(context, count, values, &question))
        return;
    if (is_score ? nomenclature_number(&question.second) != CVSS_NOTHING : is_metric_name(&question.second)) {
        (is_score ? return_score : return_text)(context, &question);
        return;
    }
    char *message = sqlite3_mprintf("no CVSS %s has the name `%.*s`", is_score ? "nomenclature" : "metric",
                                    (int)question.second.length, question.second.bytes);
    if (message == NULL)
        sqlite3_result_error_nomem(context);
    else
        sqlite3_result_error(context, message, -1);
    sqlite3_free(message);
}

static void answer_is_valid(sqlite3_context *context, int count, sqlite3_value **values)
{
    Question question;
    if (read_question(context, count, values, &question))
        sqlite3_result_int(context, overall_score(&question) != CVSS_NOTHING);
}

static const Function functions[] = {
    {"cvss_is_valid", answer_is_valid, NULL, NULL, 1, true, false},
    {"cvss_canonical", answer_text, put_canonical, NULL, 1, true, false},
    {"cvss_version", answer_text, put_version, NULL, 1, true, false},
    {"cvss_score", answer_score, NULL, overall_score, 1, true, false},
    {"cvss_tenths", answer_number, NULL, overall_score, 1, true, false},
    {"cvss_severity", answer_text, put_severity, NULL, 1, true, false},
    {"cvss_severity_rank", answer_number, NULL, severity_rank, 1, true, false},
    {"cvss_base_score", answer_score, NULL, base_score, 1, true, false},
    {"cvss_base_severity", answer_text, put_base_severity, NULL, 1, true, false},
    {"cvss_temporal_score", answer_score, NULL, temporal_score, 1, true, false},
    {"cvss_temporal_severity", answer_text, put_temporal_severity, NULL, 1, true, false},
    {"cvss_environmental_score", answer_score, NULL, environmental_score, 1, true, false},
    {"cvss_environmental_severity", answer_text, put_environmental_severity, NULL, 1, true, false},
    {"cvss_is_complete", answer_number, NULL, is_complete, 1, false, false},
    {"cvss_severity_of", answer_text, put_severity_of, NULL, 1, false, false},
    {"cvss_severity_of", answer_text, put_severity_by, NULL, 2, false, false},
    {"cvss_nomenclature", answer_text, put_nomenclature, NULL, 1, true, false},
    {"cvss_nomenclature_score", answer_named, NULL, nomenclature_score, 2, true, false},
    {"cvss_metric", answer_named, put_metric, NULL, 2, true, false},
    {"cvss_metric_title", answer_named, put_metric_title, NULL, 2, true, false},
    {"cvss_value_title", answer_named, put_value_title, NULL, 2, true, false},
    {"cvss_without_not_defined", answer_text, put_without_not_defined, NULL, 1, true, false},
    {"cvss_with_metrics", answer_text, put_with_metrics, NULL, 2, true, false},
    {"cvss_with_metrics_error", answer_text, put_with_metrics_error, NULL, 2, true, false},
    {"cvss_from_metrics", answer_text, put_from_metrics, NULL, 2, true, false},
    {"cvss_from_metrics_error", answer_text, put_from_metrics_error, NULL, 2, true, false},
    {"cvss_record", answer_text, put_record, NULL, 1, true, true},
    {"cvss_explain", answer_text, put_explanation, NULL, 1, true, true},
    {"cvss_error", answer_text, put_error, NULL, 1, true, false},
};

/* Adds a function, also with the argument `allow_incomplete` if it reads a vector. */
static int add_function(sqlite3 *database, const Function *function)
{
    const int flags = SQLITE_UTF8 | SQLITE_DETERMINISTIC | SQLITE_INNOCUOUS
                      | (function->is_json ? SQLITE_RESULT_SUBTYPE : 0);
    int status = SQLITE_OK;
    for (int more = 0; status == SQLITE_OK && more <= (function->reads_vector ? 1 : 0); more++)
        status = sqlite3_create_function_v2(database, function->name, function->texts + more, flags, (void *)function,
                                            function->call, NULL, NULL, NULL);
    return status;
}

__attribute__((visibility("default"))) int sqlite3_cvss_init(sqlite3 *database, char **message,
                                                             const sqlite3_api_routines *api);

int sqlite3_cvss_init(sqlite3 *database, char **message, const sqlite3_api_routines *api)
{
    int status = SQLITE_OK;
    (void)message;
    SQLITE_EXTENSION_INIT2(api)
    for (size_t i = 0; status == SQLITE_OK && i < sizeof functions / sizeof *functions; i++)
        status = add_function(database, &functions[i]);
    if (status == SQLITE_OK)
        status = sqlite3_create_module_v2(database, "cvss_find", &cvss_find_module, NULL, NULL);
    return status;
}
