/*
 * CVSS in SQL: the functions of the extension cvss of PostgreSQL. docs/SQL.md says what each returns, and
 * bindings/sql/answers.h how. cvss_find is in find.c, and what databases at version 1.1 of the extension call in
 * version_1_1.c.
 *
 * A text is read as its bytes, in whatever encoding the database has. The library keeps no memory beyond a call, and
 * no error of the server is raised within one.
 */
#include "call.h"

PG_MODULE_MAGIC;

static int32
is_valid(const Question *question)
{
	return overall_score(question) != CVSS_NOTHING;
}

/* The names differ from those of the library, which this module holds too. */
SQL_FUNCTION(sql_is_valid, return_bool(fcinfo, question_of(fcinfo, 1), is_valid));
SQL_FUNCTION(sql_canonical, return_text(fcinfo, question_of(fcinfo, 1), put_canonical));
SQL_FUNCTION(sql_version, return_text(fcinfo, question_of(fcinfo, 1), put_version));
SQL_FUNCTION(sql_score, return_score(fcinfo, question_of(fcinfo, 1), overall_score));
SQL_FUNCTION(sql_tenths, return_number(fcinfo, question_of(fcinfo, 1), overall_score));
SQL_FUNCTION(sql_severity, return_text(fcinfo, question_of(fcinfo, 1), put_severity));
SQL_FUNCTION(sql_severity_rank, return_number(fcinfo, question_of(fcinfo, 1), severity_rank));
SQL_FUNCTION(sql_base_score, return_score(fcinfo, question_of(fcinfo, 1), base_score));
SQL_FUNCTION(sql_base_severity, return_text(fcinfo, question_of(fcinfo, 1), put_base_severity));
SQL_FUNCTION(sql_temporal_score, return_score(fcinfo, question_of(fcinfo, 1), temporal_score));
SQL_FUNCTION(sql_temporal_severity, return_text(fcinfo, question_of(fcinfo, 1), put_temporal_severity));
SQL_FUNCTION(sql_environmental_score, return_score(fcinfo, question_of(fcinfo, 1), environmental_score));
SQL_FUNCTION(sql_environmental_severity, return_text(fcinfo, question_of(fcinfo, 1), put_environmental_severity));
SQL_FUNCTION(sql_is_complete, return_bool(fcinfo, question_of(fcinfo, 1), is_complete));
SQL_FUNCTION(sql_nomenclature, return_text(fcinfo, question_of(fcinfo, 1), put_nomenclature));
SQL_FUNCTION(sql_nomenclature_score,
			 return_score(fcinfo, with_nomenclature(question_of(fcinfo, 2)), nomenclature_score));
SQL_FUNCTION(sql_metric, return_text(fcinfo, with_metric_name(question_of(fcinfo, 2)), put_metric));
SQL_FUNCTION(sql_metric_title, return_text(fcinfo, with_metric_name(question_of(fcinfo, 2)), put_metric_title));
SQL_FUNCTION(sql_value_title, return_text(fcinfo, with_metric_name(question_of(fcinfo, 2)), put_value_title));
SQL_FUNCTION(sql_without_not_defined, return_text(fcinfo, question_of(fcinfo, 1), put_without_not_defined));
SQL_FUNCTION(sql_with_metrics, return_text(fcinfo, question_of(fcinfo, 2), put_with_metrics));
SQL_FUNCTION(sql_with_metrics_error, return_text(fcinfo, question_of(fcinfo, 2), put_with_metrics_error));
SQL_FUNCTION(sql_from_metrics, return_text(fcinfo, question_of(fcinfo, 2), put_from_metrics));
SQL_FUNCTION(sql_from_metrics_error, return_text(fcinfo, question_of(fcinfo, 2), put_from_metrics_error));
SQL_FUNCTION(sql_record, return_jsonb(fcinfo, question_of(fcinfo, 1), put_record));
SQL_FUNCTION(sql_explain, return_jsonb(fcinfo, question_of(fcinfo, 1), put_explanation));
SQL_FUNCTION(sql_error, return_text(fcinfo, question_of(fcinfo, 1), put_error));
SQL_FUNCTION(sql_check, return_checked(fcinfo, question_of(fcinfo, 1)));

/* The severity of a score without a vector, which is a number and no text. Versions 1.1 and 2.0 call it. */
PG_FUNCTION_INFO_V1(sql_cvss_severity_of);
Datum
sql_cvss_severity_of(PG_FUNCTION_ARGS)
{
	const char *score = DatumGetCString(DirectFunctionCall1(numeric_out, PG_GETARG_DATUM(0)));
	Question	question = {{"", 0}, {"", 0}, 0};

	question.text.bytes = score;
	question.text.length = strlen(score);
	if (PG_NARGS() == 1)
		return return_text(fcinfo, question, put_severity_of);
	question.second = text_of(fcinfo, 1);
	return return_text(fcinfo, question, put_severity_by);
}
