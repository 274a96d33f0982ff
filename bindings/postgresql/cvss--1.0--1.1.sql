-- The functions that version 1.1 of the extension cvss adds, which docs/SQL.md explains.
\echo Use "ALTER EXTENSION cvss UPDATE" to load this file. \quit

CREATE FUNCTION cvss_tenths(text) RETURNS integer
AS 'MODULE_PATHNAME', 'sql_cvss_tenths' LANGUAGE C IMMUTABLE STRICT PARALLEL SAFE;
COMMENT ON FUNCTION cvss_tenths(text) IS 'the score of the CVSS vector in tenths, a whole number';

CREATE FUNCTION cvss_severity_rank(text) RETURNS integer
AS 'MODULE_PATHNAME', 'sql_cvss_severity_rank' LANGUAGE C IMMUTABLE STRICT PARALLEL SAFE;
COMMENT ON FUNCTION cvss_severity_rank(text) IS 'the rating of the score as a number, from 0 for none to 4 for critical';

CREATE FUNCTION cvss_is_complete(text) RETURNS boolean
AS 'MODULE_PATHNAME', 'sql_cvss_is_complete' LANGUAGE C IMMUTABLE STRICT PARALLEL SAFE;
COMMENT ON FUNCTION cvss_is_complete(text) IS 'whether the CVSS vector has all base metrics, which a vector of v3 may lack';

CREATE FUNCTION cvss_without_undefined(text) RETURNS text
AS 'MODULE_PATHNAME', 'sql_cvss_without_undefined' LANGUAGE C IMMUTABLE STRICT PARALLEL SAFE;
COMMENT ON FUNCTION cvss_without_undefined(text) IS 'the CVSS vector without the metrics that are X, in v2 ND';

CREATE FUNCTION cvss_metric_title(text, name text) RETURNS text
AS 'MODULE_PATHNAME', 'sql_cvss_metric_title' LANGUAGE C IMMUTABLE STRICT PARALLEL SAFE;
COMMENT ON FUNCTION cvss_metric_title(text, text) IS 'the name in words of the metric of this name, which the CVSS vector has';

CREATE FUNCTION cvss_value_title(text, name text) RETURNS text
AS 'MODULE_PATHNAME', 'sql_cvss_value_title' LANGUAGE C IMMUTABLE STRICT PARALLEL SAFE;
COMMENT ON FUNCTION cvss_value_title(text, text) IS 'the name in words of the value of the metric of this name in the CVSS vector';

CREATE FUNCTION cvss_nomenclature_score(text, nomenclature text) RETURNS numeric
AS 'MODULE_PATHNAME', 'sql_cvss_nomenclature_score' LANGUAGE C IMMUTABLE STRICT PARALLEL SAFE;
COMMENT ON FUNCTION cvss_nomenclature_score(text, text) IS 'the score of the CVSS vector of v4.0 by these groups of metrics alone, as CVSS-B';

CREATE FUNCTION cvss_severity_of(score numeric) RETURNS text
AS 'MODULE_PATHNAME', 'sql_cvss_severity_of' LANGUAGE C IMMUTABLE STRICT PARALLEL SAFE;
COMMENT ON FUNCTION cvss_severity_of(numeric) IS 'the rating of a score by the bounds of v3 and v4.0';

CREATE FUNCTION cvss_severity_of(score numeric, version text) RETURNS text
AS 'MODULE_PATHNAME', 'sql_cvss_severity_of' LANGUAGE C IMMUTABLE STRICT PARALLEL SAFE;
COMMENT ON FUNCTION cvss_severity_of(numeric, text) IS 'the rating of a score by the bounds of a version of CVSS';

CREATE FUNCTION cvss_build(version text, metrics text) RETURNS text
AS 'MODULE_PATHNAME', 'sql_cvss_build' LANGUAGE C IMMUTABLE STRICT PARALLEL SAFE;
COMMENT ON FUNCTION cvss_build(text, text) IS 'the CVSS vector of a version with these metrics, as AV:N/AC:L, in any order';

CREATE FUNCTION cvss_build_reason(version text, metrics text) RETURNS text
AS 'MODULE_PATHNAME', 'sql_cvss_build_reason' LANGUAGE C IMMUTABLE STRICT PARALLEL SAFE;
COMMENT ON FUNCTION cvss_build_reason(text, text) IS 'why cvss_build answers NULL to the same; NULL where it answers';

CREATE FUNCTION cvss_strict_reason(text) RETURNS text
AS 'MODULE_PATHNAME', 'sql_cvss_strict_reason' LANGUAGE C IMMUTABLE STRICT PARALLEL SAFE;
COMMENT ON FUNCTION cvss_strict_reason(text) IS 'why the text denotes no CVSS vector with all base metrics; NULL where it does';

COMMENT ON FUNCTION cvss_with(text, text) IS 'the CVSS vector with these metrics set, as E:A/MSI:S';

-- The rows report whether the vector is complete. Views over the function of version 1.0 keep it, by its new name.
ALTER FUNCTION cvss_find(text) RENAME TO cvss_find_1_0;
COMMENT ON FUNCTION cvss_find_1_0(text) IS 'cvss_find of version 1.0, for views that were created over it';
CREATE FUNCTION cvss_find(text, OUT place integer, OUT given text, OUT vector text, OUT is_complete boolean)
RETURNS SETOF record
AS 'MODULE_PATHNAME', 'sql_cvss_find' LANGUAGE C IMMUTABLE STRICT PARALLEL SAFE ROWS 2;
COMMENT ON FUNCTION cvss_find(text) IS 'the CVSS vectors in a text: place, text as given, canonical text, whether it is complete';
