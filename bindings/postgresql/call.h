/* The arguments and results of the functions of PostgreSQL. */
#ifndef CVSS_POSTGRESQL_CALL_H
#define CVSS_POSTGRESQL_CALL_H

#include "postgres.h"

#include "fmgr.h"
#include "utils/builtins.h"
#include "utils/jsonb.h"
#include "utils/numeric.h"
#if PG_VERSION_NUM >= 160000
#include "varatt.h"
#endif

#include "answers.h"

/* Most texts have room in fewer bytes. */
#define FIRST_SIZE 2000

static inline Text
text_of(FunctionCallInfo fcinfo, int argument)
{
	text	   *value = PG_GETARG_TEXT_PP(argument);
	Text		bytes;

	bytes.bytes = VARDATA_ANY(value);
	bytes.length = VARSIZE_ANY_EXHDR(value);
	return bytes;
}

/* The flags, if there is an argument `allow_incomplete` after this number of others. */
static inline uint32
flags_of(FunctionCallInfo fcinfo, int others)
{
	return PG_NARGS() > others && PG_GETARG_BOOL(others) ? CVSS_ALLOW_INCOMPLETE : 0;
}

/* The arguments of a function that has one text or two before `allow_incomplete`. */
static inline Question
question_of(FunctionCallInfo fcinfo, int texts)
{
	Question	question = {{"", 0}, {"", 0}, 0};

	question.text = text_of(fcinfo, 0);
	if (texts > 1)
		question.second = text_of(fcinfo, 1);
	question.flags = flags_of(fcinfo, texts);
	return question;
}

/*
 * The text that a function returns, which a byte 0 ends: in the first buffer if it has room there, else in memory of the
 * server. NULL if it returns NULL.
 */
static inline char *
written(const Question *question, TextAnswer answer, char first[FIRST_SIZE], size_t *length)
{
	char	   *result = first;
	size_t		size = FIRST_SIZE - 1;

	*length = answer(question, result, size);
	if (*length == 0)
		return NULL;
	if (*length > size)
	{
		size = *length;
		result = palloc(size + 1);
		*length = answer(question, result, size);
	}
	result[*length] = '\0';
	return result;
}

static inline Datum
return_text(FunctionCallInfo fcinfo, Question question, TextAnswer answer)
{
	char		first[FIRST_SIZE];
	size_t		length;
	char	   *result = written(&question, answer, first, &length);

	if (result == NULL)
		PG_RETURN_NULL();
	PG_RETURN_TEXT_P(cstring_to_text_with_len(result, (int) length));
}

static inline Datum
return_jsonb(FunctionCallInfo fcinfo, Question question, TextAnswer answer)
{
	char		first[FIRST_SIZE];
	size_t		length;
	char	   *result = written(&question, answer, first, &length);

	if (result == NULL)
		PG_RETURN_NULL();
	return DirectFunctionCall1(jsonb_in, CStringGetDatum(result));
}

static inline Datum
return_score(FunctionCallInfo fcinfo, Question question, NumberAnswer answer)
{
	int32		tenths = answer(&question);

	if (tenths == CVSS_NOTHING)
		PG_RETURN_NULL();
	PG_RETURN_NUMERIC(int64_div_fast_to_numeric(tenths, 1));
}

static inline Datum
return_number(FunctionCallInfo fcinfo, Question question, NumberAnswer answer)
{
	int32		number = answer(&question);

	if (number == CVSS_NOTHING)
		PG_RETURN_NULL();
	PG_RETURN_INT32(number);
}

/* A boolean of a number, 1 or 0. */
static inline Datum
return_bool(FunctionCallInfo fcinfo, Question question, NumberAnswer answer)
{
	int32		number = answer(&question);

	if (number == CVSS_NOTHING)
		PG_RETURN_NULL();
	PG_RETURN_BOOL(number != 0);
}

/* An unknown name is an error: it is a mistake in the query, and not in a row. */
static inline Question
with_metric_name(Question question)
{
	if (!is_metric_name(&question.second))
		ereport(ERROR, (errcode(ERRCODE_INVALID_PARAMETER_VALUE),
						errmsg("no CVSS metric has the name `%.*s`", (int) question.second.length, question.second.bytes)));
	return question;
}

static inline Question
with_nomenclature(Question question)
{
	if (nomenclature_number(&question.second) == CVSS_NOTHING)
		ereport(ERROR, (errcode(ERRCODE_INVALID_PARAMETER_VALUE),
						errmsg("no CVSS nomenclature has the name `%.*s`", (int) question.second.length,
							   question.second.bytes)));
	return question;
}

/* True, or an error with the message, which a CHECK that is false does not have. */
static inline Datum
return_checked(FunctionCallInfo fcinfo, Question question)
{
	char		first[FIRST_SIZE];
	size_t		length;
	char	   *message = written(&question, put_error, first, &length);

	if (message != NULL)
		ereport(ERROR, (errcode(ERRCODE_CHECK_VIOLATION), errmsg("no CVSS vector: %s", message)));
	PG_RETURN_BOOL(true);
}

/* Declares a function of SQL, whose arguments are in fcinfo, and defines it. */
#define SQL_FUNCTION(name, result) \
	PG_FUNCTION_INFO_V1(name); \
	Datum name(PG_FUNCTION_ARGS) { return result; } \
	extern int	name##_ends_with_a_semicolon

#endif
