/* The arguments of functions of SQL. */
#ifndef CVSS_SQLITE_ARGUMENT_H
#define CVSS_SQLITE_ARGUMENT_H

#include "answers.h"

#include <sqlite3ext.h>

/* Virtual tables whose functions are in find.c. */
extern const sqlite3_module cvss_find_module;

/*
 * The bytes of a value: of a blob as they are, and of another value as it is printed. SQLITE_OK; SQLITE_EMPTY if it is
 * NULL, and SQLITE_NOMEM if there was no memory for its bytes.
 */
int cvss_read_value(sqlite3_value *value, Text *text);

/* What is wrong with an argument for which cvss_read_flags returns SQLITE_MISMATCH. */
extern const char cvss_no_flag[];

/*
 * The flags by an argument `allow_incomplete`, a number: TRUE is 1 in SQLite. SQLITE_OK; SQLITE_EMPTY if it is NULL, and
 * SQLITE_MISMATCH if it is no number, since 'true' would count as false.
 */
int cvss_read_flags(sqlite3_value *value, uint32_t *flags);

#endif
