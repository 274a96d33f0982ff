/*
 * The table-valued function cvss_find(text, allow_incomplete) of SQLite: a row for each vector in the text, in order. It
 * is an eponymous virtual table, whose hidden columns are the arguments.
 */
#include "argument.h"

#include <stddef.h>
#include <string.h>

SQLITE_EXTENSION_INIT3

enum { MATCH_OFFSET, TEXT, VECTOR, IS_COMPLETE, ERROR, ARGUMENT, ALLOW_INCOMPLETE };

/* Which arguments `choose` passes to `filter`, besides the text. */
enum { WITH_FLAG = 1 };

typedef struct Cursor {
    sqlite3_vtab_cursor base;
    /* what a row is read into, which grows and is kept for the next */
    char *buffer;
    size_t size;
    sqlite3_value *argument; /* a copy, or NULL */
    Text text;
    uint32_t flags;
    bool is_blob;
    bool has_row;
    CvssMatch match;
    size_t counted; /* the bytes before which the characters are counted */
    sqlite3_int64 offset;
    sqlite3_int64 row;
    bool is_read; /* whether the row is read: its vector, or the error, in the buffer */
    CvssVector vector;
    CvssError error;
    size_t length;
} Cursor;

static int connect(sqlite3 *database, void *data, int count, const char *const *words, sqlite3_vtab **table,
                   char **message)
{
    int status = sqlite3_declare_vtab(database, "CREATE TABLE found (match_offset INTEGER, text TEXT, vector TEXT, "
                                                "is_complete INTEGER, error TEXT, cvss_text HIDDEN, "
                                                "allow_incomplete HIDDEN)");
    (void)data, (void)count, (void)words, (void)message;
    if (status != SQLITE_OK)
        return status;
    sqlite3_vtab_config(database, SQLITE_VTAB_INNOCUOUS);
    *table = sqlite3_malloc(sizeof **table);
    if (*table == NULL)
        return SQLITE_NOMEM;
    memset(*table, 0, sizeof **table);
    return SQLITE_OK;
}

static int disconnect(sqlite3_vtab *table)
{
    sqlite3_free(table);
    return SQLITE_OK;
}

/* Which constraint gives an argument: -1 if none does, and -2 if it cannot yet be known. */
static int given_by(const sqlite3_index_info *index, int argument)
{
    int found = -1;
    for (int i = 0; i < index->nConstraint; i++) {
        if (index->aConstraint[i].iColumn != argument || index->aConstraint[i].op != SQLITE_INDEX_CONSTRAINT_EQ)
            continue;
        if (index->aConstraint[i].usable)
            return i;
        found = -2;
    }
    return found;
}

/* The arguments have to be known; without a text there is no row. */
static int choose(sqlite3_vtab *table, sqlite3_index_info *index)
{
    int text = given_by(index, ARGUMENT), flag = given_by(index, ALLOW_INCOMPLETE);
    (void)table;
    if (text == -2 || flag == -2)
        return SQLITE_CONSTRAINT;
    if (text == -1)
        return SQLITE_OK;
    index->aConstraintUsage[text].argvIndex = 1;
    index->aConstraintUsage[text].omit = 1;
    if (flag >= 0) {
        index->aConstraintUsage[flag].argvIndex = 2;
        index->aConstraintUsage[flag].omit = 1;
        index->idxNum = WITH_FLAG;
    }
    index->estimatedCost = 10;
    index->estimatedRows = 2;
    return SQLITE_OK;
}

static int open_cursor(sqlite3_vtab *table, sqlite3_vtab_cursor **base)
{
    Cursor *cursor = sqlite3_malloc(sizeof *cursor);
    (void)table;
    if (cursor == NULL)
        return SQLITE_NOMEM;
    memset(cursor, 0, sizeof *cursor);
    *base = &cursor->base;
    return SQLITE_OK;
}

static int close_cursor(sqlite3_vtab_cursor *base)
{
    Cursor *cursor = (Cursor *)base;
    sqlite3_value_free(cursor->argument);
    sqlite3_free(cursor->buffer);
    sqlite3_free(cursor);
    return SQLITE_OK;
}

/* How many characters SQLite counts in bytes of a text: a byte from 0xC0 on takes the bytes 0x80 to 0xBF after it. */
static sqlite3_int64 characters(const char *bytes, size_t length)
{
    sqlite3_int64 count = 0;
    bool is_inside = false;
    for (size_t i = 0; i < length; i++) {
        unsigned char byte = (unsigned char)bytes[i];
        bool goes_on = byte >= 0x80 && byte < 0xC0;
        if (!goes_on)
            is_inside = byte >= 0xC0;
        count += !goes_on || !is_inside;
    }
    return count;
}

static int next(sqlite3_vtab_cursor *base)
{
    Cursor *cursor = (Cursor *)base;
    cursor->has_row = cvss_find(cursor->text.bytes, cursor->text.length, &cursor->match);
    if (!cursor->has_row)
        return SQLITE_OK;
    size_t more = cursor->match.offset - cursor->counted;
    cursor->offset += cursor->is_blob ? (sqlite3_int64)more : characters(cursor->text.bytes + cursor->counted, more);
    cursor->counted = cursor->match.offset;
    cursor->row++;
    cursor->is_read = false;
    return SQLITE_OK;
}

/* Reads the argument `allow_incomplete`, as cvss_read_flags does, and reports what is no number. */
static int read_flags(Cursor *cursor, sqlite3_value *value)
{
    int status = cvss_read_flags(value, &cursor->flags);
    if (status != SQLITE_MISMATCH)
        return status;
    sqlite3_free(cursor->base.pVtab->zErrMsg);
    cursor->base.pVtab->zErrMsg = sqlite3_mprintf("%s", cvss_no_flag);
    return SQLITE_ERROR;
}

static int filter(sqlite3_vtab_cursor *base, int number, const char *name, int count, sqlite3_value **values)
{
    Cursor *cursor = (Cursor *)base;
    int status = SQLITE_OK;
    (void)name;
    sqlite3_value_free(cursor->argument);
    memset(&cursor->argument, 0, sizeof *cursor - offsetof(Cursor, argument));
    cursor->offset = 1;
    cursor->match.size = sizeof cursor->match;
    if (count == 0)
        return SQLITE_OK;
    cursor->argument = sqlite3_value_dup(values[0]);
    if (cursor->argument == NULL)
        return SQLITE_NOMEM;
    cursor->is_blob = sqlite3_value_type(cursor->argument) == SQLITE_BLOB;
    if (number == WITH_FLAG)
        status = read_flags(cursor, values[1]);
    if (status == SQLITE_OK)
        status = cvss_read_value(cursor->argument, &cursor->text);
    return status == SQLITE_OK ? next(base) : status == SQLITE_EMPTY ? SQLITE_OK : status;
}

static int is_past(sqlite3_vtab_cursor *base)
{
    return !((Cursor *)base)->has_row;
}

static size_t parse(Cursor *cursor)
{
    return cvss_parse(cursor->text.bytes + cursor->match.offset, cursor->match.length, cursor->flags, &cursor->vector,
                      &cursor->error, cursor->buffer, cursor->size);
}

/* Reads the vector of a row: once, and only for a query that asks for what it says. */
static int read_row(Cursor *cursor)
{
    if (cursor->is_read)
        return SQLITE_OK;
    cursor->vector.size = sizeof cursor->vector;
    cursor->error.size = sizeof cursor->error;
    cursor->length = parse(cursor);
    if (cursor->length > cursor->size) {
        char *buffer = sqlite3_realloc64(cursor->buffer, cursor->length);
        if (buffer == NULL)
            return SQLITE_NOMEM;
        cursor->buffer = buffer;
        cursor->size = cursor->length;
        cursor->length = parse(cursor);
    }
    cursor->is_read = true;
    return SQLITE_OK;
}

/* Returns a column of what is read: of a vector its text and whether it is complete, of an error its message. */
static int return_read(Cursor *cursor, sqlite3_context *context, int number)
{
    int status = read_row(cursor);
    bool is_error = cursor->error.kind != CVSS_ACCEPTED;
    if (status != SQLITE_OK || is_error != (number == ERROR))
        return status;
    if (number == IS_COMPLETE)
        sqlite3_result_int(context, cursor->vector.is_complete);
    else
        sqlite3_result_text64(context, cursor->buffer, cursor->length, SQLITE_TRANSIENT, SQLITE_UTF8);
    return SQLITE_OK;
}

static int column(sqlite3_vtab_cursor *base, sqlite3_context *context, int number)
{
    Cursor *cursor = (Cursor *)base;
    switch (number) {
    case MATCH_OFFSET:
        sqlite3_result_int64(context, cursor->offset);
        return SQLITE_OK;
    case TEXT:
        sqlite3_result_text64(context, cursor->text.bytes + cursor->match.offset, cursor->match.length,
                              SQLITE_TRANSIENT, SQLITE_UTF8);
        return SQLITE_OK;
    case ARGUMENT:
        sqlite3_result_value(context, cursor->argument);
        return SQLITE_OK;
    case ALLOW_INCOMPLETE:
        sqlite3_result_int(context, cursor->flags == CVSS_ALLOW_INCOMPLETE);
        return SQLITE_OK;
    default:
        return return_read(cursor, context, number);
    }
}

static int row(sqlite3_vtab_cursor *base, sqlite3_int64 *number)
{
    *number = ((Cursor *)base)->row;
    return SQLITE_OK;
}

const sqlite3_module cvss_find_module = {
    .xConnect = connect,
    .xBestIndex = choose,
    .xDisconnect = disconnect,
    .xOpen = open_cursor,
    .xClose = close_cursor,
    .xFilter = filter,
    .xNext = next,
    .xEof = is_past,
    .xColumn = column,
    .xRowid = row,
};
