/* A search for vectors in a text, which the functions cvss_find of all versions share. */
#ifndef CVSS_POSTGRESQL_FIND_H
#define CVSS_POSTGRESQL_FIND_H

#include "call.h"

#include "funcapi.h"

/* How far a text has been searched: the byte before which characters are counted is the character `offset`, from 1. */
typedef struct Search
{
	Text		text;
	uint32		flags;
	CvssMatch	match;
	size_t		counted;
	int			offset;
} Search;

/* What a match is read into: its canonical text, or why it is rejected. */
typedef struct Parsed
{
	CvssVector	vector;
	CvssError	error;
	Datum		text;
} Parsed;

/* Sets the columns of a match. */
typedef void (*FillRow) (const Search *search, Datum *values, bool *nulls);

/* The most columns that a row has. */
#define MOST_COLUMNS 5

extern Parsed cvss_sql_parse(const Search *search);
extern Datum cvss_sql_match_text(const Search *search);
extern Datum cvss_sql_next_row(FunctionCallInfo fcinfo, uint32 flags, FillRow fill);

#endif
