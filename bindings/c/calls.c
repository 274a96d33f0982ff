/*
 * Sets metrics in vectors, makes vectors of metrics and scores vectors by nomenclature, as each row of standard input
 * asks. tests/stored/expected.py writes such rows with what is expected. Exits with 0 if all results are these.
 */
#define _POSIX_C_SOURCE 200809L
#include "cvss.h"

#include <stdio.h>
#include <stdlib.h>
#include <string.h>
#include <sys/types.h>

enum {
    TEXT, METRICS, ASKED, COMPONENTS, CHANGED, METRICS_ERROR, MADE, MADE_ERROR, ERROR, STRICT_MESSAGE, B, COLUMNS = B + 4
};

/* A column of a row, of which there may be none. */
typedef struct Column {
    char *bytes;
    size_t length;
    bool is_there;
} Column;

/* The column that a field encodes. It replaces the field, which has at least as many bytes. */
static Column unescaped(char *field)
{
    Column column = {field, 0, strcmp(field, "\\N") != 0};
    for (const char *place = field; column.is_there && *place != '\0'; place++) {
        char code[3] = "";
        if (*place == '\\') {
            memcpy(code, place + 2, 2);
            place += 3;
            field[column.length++] = (char)strtoul(code, NULL, 16);
        } else {
            field[column.length++] = *place;
        }
    }
    return column;
}

/* Splits a line at its tabs, and returns whether it has all columns. */
static bool is_cut(char *line, Column columns[COLUMNS])
{
    line[strcspn(line, "\n")] = '\0';
    for (size_t i = 0; i < COLUMNS; i++) {
        size_t length = strcspn(line, "\t");
        bool is_last = line[length] == '\0';
        line[length] = '\0';
        columns[i] = unescaped(line);
        if (is_last)
            return i == COLUMNS - 1;
        line += length + 1;
    }
    return false;
}

/* What a call returns and writes. */
typedef struct Result {
    char *buffer;
    size_t size, returned;
    CvssError error;
} Result;

/* Whether the buffer has the column. */
static bool is_column(const Column *column, const Result *own)
{
    return own->returned == column->length && own->returned <= own->size
        && memcmp(own->buffer, column->bytes, own->returned) == 0;
}

/* Whether an error is that of a column: its kind, the metric and what is quoted, which a column of an unknown version has too. */
static bool is_error(const Column *column, const Result *own, bool quotes)
{
    const CvssError *error = &own->error;
    char head[24];
    size_t begun = (size_t)snprintf(head, sizeof head, "%d %s ", (int)error->kind, error->metric[0] == '\0' ? "-" : error->metric);
    if (!column->is_there || own->returned > own->size || column->length < begun || memcmp(column->bytes, head, begun) != 0)
        return false;
    return !quotes ? error->quoted_length == 0 : column->length - begun == error->quoted_length
        && memcmp(column->bytes + begun, own->buffer + error->quoted_start, error->quoted_length) == 0;
}

/* Whether a result is that of a column, or its error that of another. */
static bool is_either(const Column *column, const Column *error, const Result *own, bool quotes)
{
    if (own->error.kind == CVSS_ACCEPTED)
        return column->is_there && !error->is_there && is_column(column, own);
    return !column->is_there && is_error(error, own, quotes);
}

static int32_t version_of(const Column *asked)
{
    static const char names[][4] = {"2.0", "3.0", "3.1", "4.0"};
    static const int32_t numbers[] = {20, 30, 31, 40};
    for (size_t i = 0; i < 4; i++)
        if (asked->length == 3 && memcmp(asked->bytes, names[i], 3) == 0)
            return numbers[i];
    return CVSS_NOTHING;
}

/* Whether the four scores are those of the columns, which only a vector of v4.0 has. */
static bool are_scored(const Column columns[COLUMNS], const CvssVector *vector)
{
    bool is_right = (vector->version == 40) == columns[B].is_there;
    for (size_t i = 0; i < 4 && is_right && columns[B].is_there; i++) {
        char score_text[8];
        int32_t tenths = vector->by_nomenclature[i];
        size_t length = (size_t)snprintf(score_text, sizeof score_text, "%d.%d", (int)(tenths / 10), (int)(tenths % 10));
        is_right = columns[B + i].length == length && memcmp(columns[B + i].bytes, score_text, length) == 0;
    }
    return is_right;
}

/* The text by itself: its error, without the flag also that of an incomplete vector, and its scores. */
static bool is_parsed(const Column columns[COLUMNS], Result *own)
{
    const Column *text = &columns[TEXT];
    CvssVector vector = CVSS_VECTOR_INIT;
    own->returned = cvss_parse(text->bytes, text->length, 0, &vector, &own->error, own->buffer, own->size);
    bool is_right = (own->error.kind == CVSS_ACCEPTED) == !columns[STRICT_MESSAGE].is_there;
    is_right = is_right && (own->error.kind == CVSS_ACCEPTED || is_column(&columns[STRICT_MESSAGE], own));
    own->returned = cvss_parse(text->bytes, text->length, CVSS_ALLOW_INCOMPLETE, &vector, &own->error, own->buffer, own->size);
    is_right = is_right && (own->error.kind == CVSS_ACCEPTED) == !columns[ERROR].is_there;
    is_right = is_right && (own->error.kind == CVSS_ACCEPTED || is_error(&columns[ERROR], own, true));
    return is_right && are_scored(columns, &vector);
}

/* Whether a result without the flag is the same if it is complete, and otherwise the error of an incomplete vector. */
static bool is_as_complete(const Column *column, const Result *strict)
{
    CvssVector vector = CVSS_VECTOR_INIT;
    CvssError error = CVSS_ERROR_INIT;
    if (!column->is_there)
        return strict->error.kind != CVSS_ACCEPTED;
    cvss_parse(column->bytes, column->length, CVSS_ALLOW_INCOMPLETE, &vector, &error, NULL, 0);
    return vector.is_complete ? is_column(column, strict) : strict->error.kind == CVSS_MISSING_METRIC;
}

static bool is_right(const Column columns[COLUMNS], Result *own)
{
    const Column *text = &columns[TEXT], *metrics = &columns[METRICS], *components = &columns[COMPONENTS];
    int32_t version = version_of(&columns[ASKED]);
    bool right = is_parsed(columns, own);
    own->returned = cvss_with_metrics(text->bytes, text->length, metrics->bytes, metrics->length, CVSS_ALLOW_INCOMPLETE,
                                      &own->error, own->buffer, own->size);
    /* a text that is rejected has its own error */
    const Column *error = &columns[columns[ERROR].is_there ? ERROR : METRICS_ERROR];
    right = right && is_either(&columns[CHANGED], error, own, true) && (own->error.index < 0 || !columns[ERROR].is_there);
    own->returned = cvss_with_metrics(text->bytes, text->length, metrics->bytes, metrics->length, 0, &own->error, own->buffer,
                                      own->size);
    right = right && is_as_complete(&columns[CHANGED], own);
    own->returned = cvss_from_metrics(version, components->bytes, components->length, CVSS_ALLOW_INCOMPLETE, &own->error,
                                      own->buffer, own->size);
    right = right && is_either(&columns[MADE], &columns[MADE_ERROR], own, version != CVSS_NOTHING);
    own->returned = cvss_from_metrics(version, components->bytes, components->length, 0, &own->error, own->buffer, own->size);
    return right && is_as_complete(&columns[MADE], own);
}

int main(void)
{
    static char buffer[1 << 20];
    Result own = {buffer, sizeof buffer, 0, CVSS_ERROR_INIT};
    char *line = NULL;
    size_t room = 0, rows = 0;
    bool right = true;
    while (right && getline(&line, &room, stdin) >= 0) {
        Column columns[COLUMNS];
        right = is_cut(line, columns) && is_right(columns, &own);
        rows++;
    }
    if (!right)
        printf("row %zu: another result\n", rows);
    free(line);
    return right && rows > 0 ? 0 : 1;
}
