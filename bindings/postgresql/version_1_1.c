/*
 * The functions of the versions 1.0 and 1.1 of the extension, as their scripts name them. A server has one module for
 * all its databases, so these serve those that are not yet updated: they accept v3 vectors that lack base metrics, and
 * the score of v2 and v3 is the base score.
 */
#include "find.h"

static Question
question_1_1(FunctionCallInfo fcinfo)
{
	Question	question = question_of(fcinfo, PG_NARGS());

	question.flags = CVSS_ALLOW_INCOMPLETE;
	return question;
}

static int32
is_valid_1_1(const Question *question)
{
	return overall_score(question) != CVSS_NOTHING;
}

static int32
score_1_1(const Question *question)
{
	CvssVector	vector = vector_of(question);

	return vector.version == 40 ? vector.score : vector.base;
}

static int32
severity_rank_1_1(const Question *question)
{
	CvssVector	vector = vector_of(question);

	return vector.version == 40 ? vector.severity : vector.base_severity;
}

static size_t
put_severity_1_1(const Question *question, void *buffer, size_t size)
{
	return put_word(cvss_severity_name(severity_rank_1_1(question)), buffer, size);
}

/* A message with the number of the metric that it is about before it. */
static size_t
numbered(size_t length, const CvssError *error, char *buffer, size_t size)
{
	char		number[32];
	size_t		more;

	if (error->index == CVSS_NOTHING)
		return length;
	snprintf(number, sizeof number, "metric %d: ", (int) error->index);
	more = strlen(number);
	if (length + more <= size)
	{
		memmove(buffer + more, buffer, length);
		memcpy(buffer, number, more);
	}
	return length + more;
}

static size_t
put_with_reason(const Question *question, void *buffer, size_t size)
{
	CvssError	error = CVSS_ERROR_INIT;
	size_t		length = put_changed(question, &error, buffer, size);

	return message_of(numbered(length, &error, buffer, size), &error);
}

static size_t
put_build_reason(const Question *question, void *buffer, size_t size)
{
	CvssError	error = CVSS_ERROR_INIT;
	size_t		length;

	if (version_number(&question->text) == CVSS_NOTHING)
		return put_from_metrics_error(question, buffer, size);
	length = put_made(question, &error, buffer, size);
	return message_of(numbered(length, &error, buffer, size), &error);
}

/* A view over cvss_find of version 1.0 has the first three columns alone. */
static void
fill_row_1_1(const Search *search, Datum *values, bool *nulls)
{
	Parsed		parsed = cvss_sql_parse(search);

	values[0] = Int32GetDatum(search->offset);
	values[1] = cvss_sql_match_text(search);
	values[2] = parsed.text;
	nulls[2] = nulls[3] = parsed.error.kind != CVSS_ACCEPTED;
	values[3] = BoolGetDatum(!nulls[3] && parsed.vector.is_complete != 0);
}

SQL_FUNCTION(sql_cvss_is_valid, return_bool(fcinfo, question_1_1(fcinfo), is_valid_1_1));
SQL_FUNCTION(sql_cvss_canonical, return_text(fcinfo, question_1_1(fcinfo), put_canonical));
SQL_FUNCTION(sql_cvss_version, return_text(fcinfo, question_1_1(fcinfo), put_version));
SQL_FUNCTION(sql_cvss_score, return_score(fcinfo, question_1_1(fcinfo), score_1_1));
SQL_FUNCTION(sql_cvss_temporal_score, return_score(fcinfo, question_1_1(fcinfo), temporal_score));
SQL_FUNCTION(sql_cvss_environmental_score, return_score(fcinfo, question_1_1(fcinfo), environmental_score));
SQL_FUNCTION(sql_cvss_tenths, return_number(fcinfo, question_1_1(fcinfo), score_1_1));
SQL_FUNCTION(sql_cvss_severity, return_text(fcinfo, question_1_1(fcinfo), put_severity_1_1));
SQL_FUNCTION(sql_cvss_severity_rank, return_number(fcinfo, question_1_1(fcinfo), severity_rank_1_1));
SQL_FUNCTION(sql_cvss_is_complete, return_bool(fcinfo, question_1_1(fcinfo), is_complete));
SQL_FUNCTION(sql_cvss_nomenclature, return_text(fcinfo, question_1_1(fcinfo), put_nomenclature));
SQL_FUNCTION(sql_cvss_nomenclature_score,
			 return_score(fcinfo, with_nomenclature(question_1_1(fcinfo)), nomenclature_score));
SQL_FUNCTION(sql_cvss_metric, return_text(fcinfo, with_metric_name(question_1_1(fcinfo)), put_metric));
SQL_FUNCTION(sql_cvss_metric_title, return_text(fcinfo, with_metric_name(question_1_1(fcinfo)), put_metric_title));
SQL_FUNCTION(sql_cvss_value_title, return_text(fcinfo, with_metric_name(question_1_1(fcinfo)), put_value_title));
SQL_FUNCTION(sql_cvss_without_undefined, return_text(fcinfo, question_1_1(fcinfo), put_without_not_defined));
SQL_FUNCTION(sql_cvss_with, return_text(fcinfo, question_1_1(fcinfo), put_with_metrics));
/* The name is that of version 1.0, where the second argument had overrides alone. */
SQL_FUNCTION(sql_cvss_override_reason, return_text(fcinfo, question_1_1(fcinfo), put_with_reason));
SQL_FUNCTION(sql_cvss_build, return_text(fcinfo, question_1_1(fcinfo), put_from_metrics));
SQL_FUNCTION(sql_cvss_build_reason, return_text(fcinfo, question_1_1(fcinfo), put_build_reason));
SQL_FUNCTION(sql_cvss_record, return_jsonb(fcinfo, question_1_1(fcinfo), put_record));
SQL_FUNCTION(sql_cvss_account, return_jsonb(fcinfo, question_1_1(fcinfo), put_explanation));
SQL_FUNCTION(sql_cvss_reason, return_text(fcinfo, question_1_1(fcinfo), put_error));
SQL_FUNCTION(sql_cvss_strict_reason, return_text(fcinfo, question_of(fcinfo, 1), put_error));
SQL_FUNCTION(sql_cvss_check, return_checked(fcinfo, question_1_1(fcinfo)));
SQL_FUNCTION(sql_cvss_find, cvss_sql_next_row(fcinfo, CVSS_ALLOW_INCOMPLETE, fill_row_1_1));
