-- The functions of version 2.0 of the extension cvss, which docs/SQL.md explains.
\echo Use "CREATE EXTENSION cvss" to load this file. \quit

-- Each that reads a vector is there twice: a v3 vector that lacks base metrics is rejected unless allow_incomplete is true.

CREATE FUNCTION cvss_is_valid(text) RETURNS boolean
AS 'MODULE_PATHNAME', 'sql_is_valid' LANGUAGE C IMMUTABLE STRICT PARALLEL SAFE;
COMMENT ON FUNCTION cvss_is_valid(text) IS 'whether the text is a valid CVSS vector';
CREATE FUNCTION cvss_is_valid(text, allow_incomplete boolean) RETURNS boolean
AS 'MODULE_PATHNAME', 'sql_is_valid' LANGUAGE C IMMUTABLE STRICT PARALLEL SAFE;
COMMENT ON FUNCTION cvss_is_valid(text, boolean) IS 'whether the text is a valid CVSS vector';

CREATE FUNCTION cvss_canonical(text) RETURNS text
AS 'MODULE_PATHNAME', 'sql_canonical' LANGUAGE C IMMUTABLE STRICT PARALLEL SAFE;
COMMENT ON FUNCTION cvss_canonical(text) IS 'the canonical text of the CVSS vector';
CREATE FUNCTION cvss_canonical(text, allow_incomplete boolean) RETURNS text
AS 'MODULE_PATHNAME', 'sql_canonical' LANGUAGE C IMMUTABLE STRICT PARALLEL SAFE;
COMMENT ON FUNCTION cvss_canonical(text, boolean) IS 'the canonical text of the CVSS vector';

CREATE FUNCTION cvss_version(text) RETURNS text
AS 'MODULE_PATHNAME', 'sql_version' LANGUAGE C IMMUTABLE STRICT PARALLEL SAFE;
COMMENT ON FUNCTION cvss_version(text) IS 'the version of CVSS: 2.0, 3.0, 3.1 or 4.0';
CREATE FUNCTION cvss_version(text, allow_incomplete boolean) RETURNS text
AS 'MODULE_PATHNAME', 'sql_version' LANGUAGE C IMMUTABLE STRICT PARALLEL SAFE;
COMMENT ON FUNCTION cvss_version(text, boolean) IS 'the version of CVSS: 2.0, 3.0, 3.1 or 4.0';

CREATE FUNCTION cvss_score(text) RETURNS numeric
AS 'MODULE_PATHNAME', 'sql_score' LANGUAGE C IMMUTABLE STRICT PARALLEL SAFE;
COMMENT ON FUNCTION cvss_score(text) IS 'the score of the CVSS vector with all its metrics, with one decimal';
CREATE FUNCTION cvss_score(text, allow_incomplete boolean) RETURNS numeric
AS 'MODULE_PATHNAME', 'sql_score' LANGUAGE C IMMUTABLE STRICT PARALLEL SAFE;
COMMENT ON FUNCTION cvss_score(text, boolean) IS 'the score of the CVSS vector with all its metrics, with one decimal';

CREATE FUNCTION cvss_tenths(text) RETURNS integer
AS 'MODULE_PATHNAME', 'sql_tenths' LANGUAGE C IMMUTABLE STRICT PARALLEL SAFE;
COMMENT ON FUNCTION cvss_tenths(text) IS 'cvss_score in tenths, a whole number';
CREATE FUNCTION cvss_tenths(text, allow_incomplete boolean) RETURNS integer
AS 'MODULE_PATHNAME', 'sql_tenths' LANGUAGE C IMMUTABLE STRICT PARALLEL SAFE;
COMMENT ON FUNCTION cvss_tenths(text, boolean) IS 'cvss_score in tenths, a whole number';

CREATE FUNCTION cvss_severity(text) RETURNS text
AS 'MODULE_PATHNAME', 'sql_severity' LANGUAGE C IMMUTABLE STRICT PARALLEL SAFE;
COMMENT ON FUNCTION cvss_severity(text) IS 'the severity of cvss_score: none, low, medium, high or critical';
CREATE FUNCTION cvss_severity(text, allow_incomplete boolean) RETURNS text
AS 'MODULE_PATHNAME', 'sql_severity' LANGUAGE C IMMUTABLE STRICT PARALLEL SAFE;
COMMENT ON FUNCTION cvss_severity(text, boolean) IS 'the severity of cvss_score: none, low, medium, high or critical';

CREATE FUNCTION cvss_severity_rank(text) RETURNS integer
AS 'MODULE_PATHNAME', 'sql_severity_rank' LANGUAGE C IMMUTABLE STRICT PARALLEL SAFE;
COMMENT ON FUNCTION cvss_severity_rank(text) IS 'the severity of cvss_score as a number, from 0 for none to 4 for critical';
CREATE FUNCTION cvss_severity_rank(text, allow_incomplete boolean) RETURNS integer
AS 'MODULE_PATHNAME', 'sql_severity_rank' LANGUAGE C IMMUTABLE STRICT PARALLEL SAFE;
COMMENT ON FUNCTION cvss_severity_rank(text, boolean) IS 'the severity of cvss_score as a number, from 0 for none to 4 for critical';

CREATE FUNCTION cvss_base_score(text) RETURNS numeric
AS 'MODULE_PATHNAME', 'sql_base_score' LANGUAGE C IMMUTABLE STRICT PARALLEL SAFE;
COMMENT ON FUNCTION cvss_base_score(text) IS 'the base score of the CVSS vector; for v4.0 the score of CVSS-B';
CREATE FUNCTION cvss_base_score(text, allow_incomplete boolean) RETURNS numeric
AS 'MODULE_PATHNAME', 'sql_base_score' LANGUAGE C IMMUTABLE STRICT PARALLEL SAFE;
COMMENT ON FUNCTION cvss_base_score(text, boolean) IS 'the base score of the CVSS vector; for v4.0 the score of CVSS-B';

CREATE FUNCTION cvss_base_severity(text) RETURNS text
AS 'MODULE_PATHNAME', 'sql_base_severity' LANGUAGE C IMMUTABLE STRICT PARALLEL SAFE;
COMMENT ON FUNCTION cvss_base_severity(text) IS 'the severity of cvss_base_score';
CREATE FUNCTION cvss_base_severity(text, allow_incomplete boolean) RETURNS text
AS 'MODULE_PATHNAME', 'sql_base_severity' LANGUAGE C IMMUTABLE STRICT PARALLEL SAFE;
COMMENT ON FUNCTION cvss_base_severity(text, boolean) IS 'the severity of cvss_base_score';

CREATE FUNCTION cvss_temporal_score(text) RETURNS numeric
AS 'MODULE_PATHNAME', 'sql_temporal_score' LANGUAGE C IMMUTABLE STRICT PARALLEL SAFE;
COMMENT ON FUNCTION cvss_temporal_score(text) IS 'the temporal score of the CVSS vector; NULL for v4.0';
CREATE FUNCTION cvss_temporal_score(text, allow_incomplete boolean) RETURNS numeric
AS 'MODULE_PATHNAME', 'sql_temporal_score' LANGUAGE C IMMUTABLE STRICT PARALLEL SAFE;
COMMENT ON FUNCTION cvss_temporal_score(text, boolean) IS 'the temporal score of the CVSS vector; NULL for v4.0';

CREATE FUNCTION cvss_temporal_severity(text) RETURNS text
AS 'MODULE_PATHNAME', 'sql_temporal_severity' LANGUAGE C IMMUTABLE STRICT PARALLEL SAFE;
COMMENT ON FUNCTION cvss_temporal_severity(text) IS 'the severity of cvss_temporal_score';
CREATE FUNCTION cvss_temporal_severity(text, allow_incomplete boolean) RETURNS text
AS 'MODULE_PATHNAME', 'sql_temporal_severity' LANGUAGE C IMMUTABLE STRICT PARALLEL SAFE;
COMMENT ON FUNCTION cvss_temporal_severity(text, boolean) IS 'the severity of cvss_temporal_score';

CREATE FUNCTION cvss_environmental_score(text) RETURNS numeric
AS 'MODULE_PATHNAME', 'sql_environmental_score' LANGUAGE C IMMUTABLE STRICT PARALLEL SAFE;
COMMENT ON FUNCTION cvss_environmental_score(text) IS 'the environmental score of the CVSS vector; NULL for v4.0';
CREATE FUNCTION cvss_environmental_score(text, allow_incomplete boolean) RETURNS numeric
AS 'MODULE_PATHNAME', 'sql_environmental_score' LANGUAGE C IMMUTABLE STRICT PARALLEL SAFE;
COMMENT ON FUNCTION cvss_environmental_score(text, boolean) IS 'the environmental score of the CVSS vector; NULL for v4.0';

CREATE FUNCTION cvss_environmental_severity(text) RETURNS text
AS 'MODULE_PATHNAME', 'sql_environmental_severity' LANGUAGE C IMMUTABLE STRICT PARALLEL SAFE;
COMMENT ON FUNCTION cvss_environmental_severity(text) IS 'the severity of cvss_environmental_score';
CREATE FUNCTION cvss_environmental_severity(text, allow_incomplete boolean) RETURNS text
AS 'MODULE_PATHNAME', 'sql_environmental_severity' LANGUAGE C IMMUTABLE STRICT PARALLEL SAFE;
COMMENT ON FUNCTION cvss_environmental_severity(text, boolean) IS 'the severity of cvss_environmental_score';

CREATE FUNCTION cvss_nomenclature(text) RETURNS text
AS 'MODULE_PATHNAME', 'sql_nomenclature' LANGUAGE C IMMUTABLE STRICT PARALLEL SAFE;
COMMENT ON FUNCTION cvss_nomenclature(text) IS 'which groups of metrics the v4.0 vector has: CVSS-B, CVSS-BE, CVSS-BT or CVSS-BTE';
CREATE FUNCTION cvss_nomenclature(text, allow_incomplete boolean) RETURNS text
AS 'MODULE_PATHNAME', 'sql_nomenclature' LANGUAGE C IMMUTABLE STRICT PARALLEL SAFE;
COMMENT ON FUNCTION cvss_nomenclature(text, boolean) IS 'which groups of metrics the v4.0 vector has: CVSS-B, CVSS-BE, CVSS-BT or CVSS-BTE';

CREATE FUNCTION cvss_nomenclature_score(text, nomenclature text) RETURNS numeric
AS 'MODULE_PATHNAME', 'sql_nomenclature_score' LANGUAGE C IMMUTABLE STRICT PARALLEL SAFE;
COMMENT ON FUNCTION cvss_nomenclature_score(text, text) IS 'the score of the v4.0 vector by these groups of metrics alone, as CVSS-B';
CREATE FUNCTION cvss_nomenclature_score(text, nomenclature text, allow_incomplete boolean) RETURNS numeric
AS 'MODULE_PATHNAME', 'sql_nomenclature_score' LANGUAGE C IMMUTABLE STRICT PARALLEL SAFE;
COMMENT ON FUNCTION cvss_nomenclature_score(text, text, boolean) IS 'the score of the v4.0 vector by these groups of metrics alone, as CVSS-B';

CREATE FUNCTION cvss_metric(text, name text) RETURNS text
AS 'MODULE_PATHNAME', 'sql_metric' LANGUAGE C IMMUTABLE STRICT PARALLEL SAFE;
COMMENT ON FUNCTION cvss_metric(text, text) IS 'the value of the metric of this name in the CVSS vector';
CREATE FUNCTION cvss_metric(text, name text, allow_incomplete boolean) RETURNS text
AS 'MODULE_PATHNAME', 'sql_metric' LANGUAGE C IMMUTABLE STRICT PARALLEL SAFE;
COMMENT ON FUNCTION cvss_metric(text, text, boolean) IS 'the value of the metric of this name in the CVSS vector';

CREATE FUNCTION cvss_metric_title(text, name text) RETURNS text
AS 'MODULE_PATHNAME', 'sql_metric_title' LANGUAGE C IMMUTABLE STRICT PARALLEL SAFE;
COMMENT ON FUNCTION cvss_metric_title(text, text) IS 'the name in words of the metric of this name, if the CVSS vector has it';
CREATE FUNCTION cvss_metric_title(text, name text, allow_incomplete boolean) RETURNS text
AS 'MODULE_PATHNAME', 'sql_metric_title' LANGUAGE C IMMUTABLE STRICT PARALLEL SAFE;
COMMENT ON FUNCTION cvss_metric_title(text, text, boolean) IS 'the name in words of the metric of this name, if the CVSS vector has it';

CREATE FUNCTION cvss_value_title(text, name text) RETURNS text
AS 'MODULE_PATHNAME', 'sql_value_title' LANGUAGE C IMMUTABLE STRICT PARALLEL SAFE;
COMMENT ON FUNCTION cvss_value_title(text, text) IS 'the name in words of the value of the metric of this name in the CVSS vector';
CREATE FUNCTION cvss_value_title(text, name text, allow_incomplete boolean) RETURNS text
AS 'MODULE_PATHNAME', 'sql_value_title' LANGUAGE C IMMUTABLE STRICT PARALLEL SAFE;
COMMENT ON FUNCTION cvss_value_title(text, text, boolean) IS 'the name in words of the value of the metric of this name in the CVSS vector';

CREATE FUNCTION cvss_without_not_defined(text) RETURNS text
AS 'MODULE_PATHNAME', 'sql_without_not_defined' LANGUAGE C IMMUTABLE STRICT PARALLEL SAFE;
COMMENT ON FUNCTION cvss_without_not_defined(text) IS 'the CVSS vector without the metrics that are X, in v2 ND';
CREATE FUNCTION cvss_without_not_defined(text, allow_incomplete boolean) RETURNS text
AS 'MODULE_PATHNAME', 'sql_without_not_defined' LANGUAGE C IMMUTABLE STRICT PARALLEL SAFE;
COMMENT ON FUNCTION cvss_without_not_defined(text, boolean) IS 'the CVSS vector without the metrics that are X, in v2 ND';

CREATE FUNCTION cvss_with_metrics(text, metrics text) RETURNS text
AS 'MODULE_PATHNAME', 'sql_with_metrics' LANGUAGE C IMMUTABLE STRICT PARALLEL SAFE;
COMMENT ON FUNCTION cvss_with_metrics(text, text) IS 'the CVSS vector with these metrics replaced or added, as E:A/MSI:S';
CREATE FUNCTION cvss_with_metrics(text, metrics text, allow_incomplete boolean) RETURNS text
AS 'MODULE_PATHNAME', 'sql_with_metrics' LANGUAGE C IMMUTABLE STRICT PARALLEL SAFE;
COMMENT ON FUNCTION cvss_with_metrics(text, text, boolean) IS 'the CVSS vector with these metrics replaced or added, as E:A/MSI:S';

CREATE FUNCTION cvss_with_metrics_error(text, metrics text) RETURNS text
AS 'MODULE_PATHNAME', 'sql_with_metrics_error' LANGUAGE C IMMUTABLE STRICT PARALLEL SAFE;
COMMENT ON FUNCTION cvss_with_metrics_error(text, text) IS 'why cvss_with_metrics returns NULL for the same arguments; NULL if it returns a text';
CREATE FUNCTION cvss_with_metrics_error(text, metrics text, allow_incomplete boolean) RETURNS text
AS 'MODULE_PATHNAME', 'sql_with_metrics_error' LANGUAGE C IMMUTABLE STRICT PARALLEL SAFE;
COMMENT ON FUNCTION cvss_with_metrics_error(text, text, boolean) IS 'why cvss_with_metrics returns NULL for the same arguments; NULL if it returns a text';

CREATE FUNCTION cvss_from_metrics(version text, metrics text) RETURNS text
AS 'MODULE_PATHNAME', 'sql_from_metrics' LANGUAGE C IMMUTABLE STRICT PARALLEL SAFE;
COMMENT ON FUNCTION cvss_from_metrics(text, text) IS 'the CVSS vector of a version with these metrics, as AV:N/AC:L, in any order';
CREATE FUNCTION cvss_from_metrics(version text, metrics text, allow_incomplete boolean) RETURNS text
AS 'MODULE_PATHNAME', 'sql_from_metrics' LANGUAGE C IMMUTABLE STRICT PARALLEL SAFE;
COMMENT ON FUNCTION cvss_from_metrics(text, text, boolean) IS 'the CVSS vector of a version with these metrics, as AV:N/AC:L, in any order';

CREATE FUNCTION cvss_from_metrics_error(version text, metrics text) RETURNS text
AS 'MODULE_PATHNAME', 'sql_from_metrics_error' LANGUAGE C IMMUTABLE STRICT PARALLEL SAFE;
COMMENT ON FUNCTION cvss_from_metrics_error(text, text) IS 'why cvss_from_metrics returns NULL for the same arguments; NULL if it returns a text';
CREATE FUNCTION cvss_from_metrics_error(version text, metrics text, allow_incomplete boolean) RETURNS text
AS 'MODULE_PATHNAME', 'sql_from_metrics_error' LANGUAGE C IMMUTABLE STRICT PARALLEL SAFE;
COMMENT ON FUNCTION cvss_from_metrics_error(text, text, boolean) IS 'why cvss_from_metrics returns NULL for the same arguments; NULL if it returns a text';

CREATE FUNCTION cvss_record(text) RETURNS jsonb
AS 'MODULE_PATHNAME', 'sql_record' LANGUAGE C IMMUTABLE STRICT PARALLEL SAFE;
COMMENT ON FUNCTION cvss_record(text) IS 'the CVSS vector as the JSON object of FIRST''s schema';
CREATE FUNCTION cvss_record(text, allow_incomplete boolean) RETURNS jsonb
AS 'MODULE_PATHNAME', 'sql_record' LANGUAGE C IMMUTABLE STRICT PARALLEL SAFE;
COMMENT ON FUNCTION cvss_record(text, boolean) IS 'the CVSS vector as the JSON object of FIRST''s schema';

CREATE FUNCTION cvss_explain(text) RETURNS jsonb
AS 'MODULE_PATHNAME', 'sql_explain' LANGUAGE C IMMUTABLE STRICT PARALLEL SAFE;
COMMENT ON FUNCTION cvss_explain(text) IS 'how the score of the CVSS vector is computed';
CREATE FUNCTION cvss_explain(text, allow_incomplete boolean) RETURNS jsonb
AS 'MODULE_PATHNAME', 'sql_explain' LANGUAGE C IMMUTABLE STRICT PARALLEL SAFE;
COMMENT ON FUNCTION cvss_explain(text, boolean) IS 'how the score of the CVSS vector is computed';

CREATE FUNCTION cvss_error(text) RETURNS text
AS 'MODULE_PATHNAME', 'sql_error' LANGUAGE C IMMUTABLE STRICT PARALLEL SAFE;
COMMENT ON FUNCTION cvss_error(text) IS 'why the text is rejected; NULL if it is a valid CVSS vector';
CREATE FUNCTION cvss_error(text, allow_incomplete boolean) RETURNS text
AS 'MODULE_PATHNAME', 'sql_error' LANGUAGE C IMMUTABLE STRICT PARALLEL SAFE;
COMMENT ON FUNCTION cvss_error(text, boolean) IS 'why the text is rejected; NULL if it is a valid CVSS vector';

CREATE FUNCTION cvss_check(text) RETURNS boolean
AS 'MODULE_PATHNAME', 'sql_check' LANGUAGE C IMMUTABLE STRICT PARALLEL SAFE;
COMMENT ON FUNCTION cvss_check(text) IS 'true if the text is a valid CVSS vector; else an error with the reason';
CREATE FUNCTION cvss_check(text, allow_incomplete boolean) RETURNS boolean
AS 'MODULE_PATHNAME', 'sql_check' LANGUAGE C IMMUTABLE STRICT PARALLEL SAFE;
COMMENT ON FUNCTION cvss_check(text, boolean) IS 'true if the text is a valid CVSS vector; else an error with the reason';

CREATE FUNCTION cvss_is_complete(text) RETURNS boolean
AS 'MODULE_PATHNAME', 'sql_is_complete' LANGUAGE C IMMUTABLE STRICT PARALLEL SAFE;
COMMENT ON FUNCTION cvss_is_complete(text) IS 'whether the CVSS vector has all base metrics, which a vector of v3 may lack';

CREATE FUNCTION cvss_severity_of(score numeric) RETURNS text
AS 'MODULE_PATHNAME', 'sql_cvss_severity_of' LANGUAGE C IMMUTABLE STRICT PARALLEL SAFE;
COMMENT ON FUNCTION cvss_severity_of(numeric) IS 'the severity of a score by the bounds of v3 and v4.0';
CREATE FUNCTION cvss_severity_of(score numeric, version text) RETURNS text
AS 'MODULE_PATHNAME', 'sql_cvss_severity_of' LANGUAGE C IMMUTABLE STRICT PARALLEL SAFE;
COMMENT ON FUNCTION cvss_severity_of(numeric, text) IS 'the severity of a score by the bounds of a version of CVSS';

CREATE FUNCTION cvss_find(text, OUT match_offset integer, OUT text text, OUT vector text, OUT is_complete boolean,
    OUT error text) RETURNS SETOF record
AS 'MODULE_PATHNAME', 'sql_find' LANGUAGE C IMMUTABLE STRICT PARALLEL SAFE ROWS 2;
COMMENT ON FUNCTION cvss_find(text) IS 'the CVSS vectors in a text: offset, text as given, and canonical text or error';
CREATE FUNCTION cvss_find(text, allow_incomplete boolean, OUT match_offset integer, OUT text text, OUT vector text, OUT is_complete boolean,
    OUT error text) RETURNS SETOF record
AS 'MODULE_PATHNAME', 'sql_find' LANGUAGE C IMMUTABLE STRICT PARALLEL SAFE ROWS 2;
COMMENT ON FUNCTION cvss_find(text, boolean) IS 'the CVSS vectors in a text: offset, text as given, and canonical text or error';

CREATE DOMAIN cvss_vector AS text CHECK (cvss_check(VALUE));
COMMENT ON DOMAIN cvss_vector IS 'a text that is a valid CVSS vector';
