/* The arguments of functions of SQL. */
#include "argument.h"

SQLITE_EXTENSION_INIT3

int cvss_read_value(sqlite3_value *value, Text *text)
{
    int type = sqlite3_value_type(value);
    if (type == SQLITE_NULL)
        return SQLITE_EMPTY;
    text->bytes = type == SQLITE_BLOB ? sqlite3_value_blob(value) : (const void *)sqlite3_value_text(value);
    text->length = (size_t)sqlite3_value_bytes(value);
    if (text->bytes != NULL)
        return SQLITE_OK;
    if (type != SQLITE_BLOB || text->length != 0)
        return SQLITE_NOMEM;
    /* an empty blob has no bytes */
    text->bytes = "";
    return SQLITE_OK;
}

const char cvss_no_flag[] = "allow_incomplete is TRUE or FALSE";

int cvss_read_flags(sqlite3_value *value, uint32_t *flags)
{
    int type = sqlite3_value_type(value);
    if (type == SQLITE_NULL)
        return SQLITE_EMPTY;
    if (type != SQLITE_INTEGER && type != SQLITE_FLOAT)
        return SQLITE_MISMATCH;
    *flags = sqlite3_value_double(value) != 0 ? CVSS_ALLOW_INCOMPLETE : 0;
    return SQLITE_OK;
}
