/* The vectors in a text, in order: the function cvss_find, which returns a row for each call. */
#include "find.h"

#include "access/htup_details.h"
#include "mb/pg_wchar.h"

/* Reads the match, with one call of the library unless its text is long. */
Parsed
cvss_sql_parse(const Search *search)
{
	const char *given = search->text.bytes + search->match.offset;
	char		first[FIRST_SIZE];
	char	   *text = first;
	size_t		length;
	Parsed		parsed;

	parsed.vector.size = sizeof parsed.vector;
	parsed.error.size = sizeof parsed.error;
	length = cvss_parse(given, search->match.length, search->flags, &parsed.vector, &parsed.error, text, FIRST_SIZE);
	if (length > FIRST_SIZE)
	{
		text = palloc(length);
		cvss_parse(given, search->match.length, search->flags, &parsed.vector, &parsed.error, text, length);
	}
	parsed.text = PointerGetDatum(cstring_to_text_with_len(text, (int) length));
	return parsed;
}

/* The text of a match as it is given. */
Datum
cvss_sql_match_text(const Search *search)
{
	return PointerGetDatum(cstring_to_text_with_len(search->text.bytes + search->match.offset, (int) search->match.length));
}

/* Begins the search that a query asks for. */
static void
begin_search(FunctionCallInfo fcinfo, uint32 flags)
{
	FuncCallContext *call = SRF_FIRSTCALL_INIT();
	MemoryContext own = MemoryContextSwitchTo(call->multi_call_memory_ctx);
	Search	   *search = palloc0(sizeof *search);
	text	   *value = PG_GETARG_TEXT_P_COPY(0);

	if (get_call_result_type(fcinfo, NULL, &call->tuple_desc) != TYPEFUNC_COMPOSITE)
		elog(ERROR, "cvss_find returns rows");
	call->tuple_desc = BlessTupleDesc(call->tuple_desc);
	search->text.bytes = VARDATA(value);
	search->text.length = VARSIZE(value) - VARHDRSZ;
	search->flags = flags;
	search->match.size = sizeof search->match;
	search->offset = 1;
	call->user_fctx = search;
	MemoryContextSwitchTo(own);
}

/* The row of the next match. */
Datum
cvss_sql_next_row(FunctionCallInfo fcinfo, uint32 flags, FillRow fill)
{
	FuncCallContext *call;
	Search	   *search;
	Datum		values[MOST_COLUMNS] = {0};
	bool		nulls[MOST_COLUMNS] = {false};
	size_t		more;

	if (SRF_IS_FIRSTCALL())
		begin_search(fcinfo, flags);
	call = SRF_PERCALL_SETUP();
	search = call->user_fctx;
	if (!cvss_find(search->text.bytes, search->text.length, &search->match))
		SRF_RETURN_DONE(call);
	more = search->match.offset - search->counted;
	search->offset += pg_mbstrlen_with_len(search->text.bytes + search->counted, (int) more);
	search->counted = search->match.offset;
	fill(search, values, nulls);
	SRF_RETURN_NEXT(call, HeapTupleGetDatum(heap_form_tuple(call->tuple_desc, values, nulls)));
}

/* Its offset, its text, and what is read: the vector and whether it is complete, or the error. */
static void
fill_row(const Search *search, Datum *values, bool *nulls)
{
	Parsed		parsed = cvss_sql_parse(search);
	bool		is_error = parsed.error.kind != CVSS_ACCEPTED;

	values[0] = Int32GetDatum(search->offset);
	values[1] = cvss_sql_match_text(search);
	values[2] = parsed.text;
	values[3] = BoolGetDatum(!is_error && parsed.vector.is_complete != 0);
	values[4] = parsed.text;
	nulls[2] = nulls[3] = is_error;
	nulls[4] = !is_error;
}

SQL_FUNCTION(sql_find, cvss_sql_next_row(fcinfo, flags_of(fcinfo, 1), fill_row));
