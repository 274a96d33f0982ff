-- The functions of the extension cvss, which docs/SQL.md explains.
\echo Use "CREATE EXTENSION cvss" to load this file. \quit

CREATE FUNCTION cvss_is_valid(text) RETURNS boolean
AS 'MODULE_PATHNAME', 'sql_cvss_is_valid' LANGUAGE C IMMUTABLE STRICT PARALLEL SAFE;
COMMENT ON FUNCTION cvss_is_valid(text) IS 'whether the text denotes a CVSS vector';

CREATE FUNCTION cvss_canonical(text) RETURNS text
AS 'MODULE_PATHNAME', 'sql_cvss_canonical' LANGUAGE C IMMUTABLE STRICT PARALLEL SAFE;
COMMENT ON FUNCTION cvss_canonical(text) IS 'the one canonical text of the CVSS vector';

CREATE FUNCTION cvss_version(text) RETURNS text
AS 'MODULE_PATHNAME', 'sql_cvss_version' LANGUAGE C IMMUTABLE STRICT PARALLEL SAFE;
COMMENT ON FUNCTION cvss_version(text) IS 'the version of CVSS: 2.0, 3.0, 3.1 or 4.0';

CREATE FUNCTION cvss_score(text) RETURNS numeric
AS 'MODULE_PATHNAME', 'sql_cvss_score' LANGUAGE C IMMUTABLE STRICT PARALLEL SAFE;
COMMENT ON FUNCTION cvss_score(text) IS 'the base score of the CVSS vector, of v4.0 its score, with one decimal';

CREATE FUNCTION cvss_temporal_score(text) RETURNS numeric
AS 'MODULE_PATHNAME', 'sql_cvss_temporal_score' LANGUAGE C IMMUTABLE STRICT PARALLEL SAFE;
COMMENT ON FUNCTION cvss_temporal_score(text) IS 'the temporal score of the CVSS vector; v4.0 has none';

CREATE FUNCTION cvss_environmental_score(text) RETURNS numeric
AS 'MODULE_PATHNAME', 'sql_cvss_environmental_score' LANGUAGE C IMMUTABLE STRICT PARALLEL SAFE;
COMMENT ON FUNCTION cvss_environmental_score(text) IS 'the environmental score of the CVSS vector; v4.0 has none';

CREATE FUNCTION cvss_severity(text) RETURNS text
AS 'MODULE_PATHNAME', 'sql_cvss_severity' LANGUAGE C IMMUTABLE STRICT PARALLEL SAFE;
COMMENT ON FUNCTION cvss_severity(text) IS 'the rating of the score: none, low, medium, high or critical';

CREATE FUNCTION cvss_nomenclature(text) RETURNS text
AS 'MODULE_PATHNAME', 'sql_cvss_nomenclature' LANGUAGE C IMMUTABLE STRICT PARALLEL SAFE;
COMMENT ON FUNCTION cvss_nomenclature(text) IS 'which metrics the score of v4.0 rests on: CVSS-B, CVSS-BE, CVSS-BT or CVSS-BTE';

CREATE FUNCTION cvss_metric(text, name text) RETURNS text
AS 'MODULE_PATHNAME', 'sql_cvss_metric' LANGUAGE C IMMUTABLE STRICT PARALLEL SAFE;
COMMENT ON FUNCTION cvss_metric(text, text) IS 'the value of the metric of this name in the CVSS vector';

CREATE FUNCTION cvss_with(text, metrics text) RETURNS text
AS 'MODULE_PATHNAME', 'sql_cvss_with' LANGUAGE C IMMUTABLE STRICT PARALLEL SAFE;
COMMENT ON FUNCTION cvss_with(text, text) IS 'the CVSS vector of v4.0 with an organisation''s environmental metrics, as MSI:S/CR:H';

CREATE FUNCTION cvss_record(text) RETURNS jsonb
AS 'MODULE_PATHNAME', 'sql_cvss_record' LANGUAGE C IMMUTABLE STRICT PARALLEL SAFE;
COMMENT ON FUNCTION cvss_record(text) IS 'the CVSS vector as the JSON object of FIRST''s schema';

CREATE FUNCTION cvss_account(text) RETURNS jsonb
AS 'MODULE_PATHNAME', 'sql_cvss_account' LANGUAGE C IMMUTABLE STRICT PARALLEL SAFE;
COMMENT ON FUNCTION cvss_account(text) IS 'the numbers on the way to the score of the CVSS vector';

CREATE FUNCTION cvss_reason(text) RETURNS text
AS 'MODULE_PATHNAME', 'sql_cvss_reason' LANGUAGE C IMMUTABLE STRICT PARALLEL SAFE;
COMMENT ON FUNCTION cvss_reason(text) IS 'why the text denotes no CVSS vector; NULL where it denotes one';

CREATE FUNCTION cvss_reason(text, metrics text) RETURNS text
AS 'MODULE_PATHNAME', 'sql_cvss_override_reason' LANGUAGE C IMMUTABLE STRICT PARALLEL SAFE;
COMMENT ON FUNCTION cvss_reason(text, text) IS 'why cvss_with answers NULL to the same; NULL where it answers';

CREATE FUNCTION cvss_find(text, OUT place integer, OUT given text, OUT vector text) RETURNS SETOF record
AS 'MODULE_PATHNAME', 'sql_cvss_find' LANGUAGE C IMMUTABLE STRICT PARALLEL SAFE ROWS 2;
COMMENT ON FUNCTION cvss_find(text) IS 'the CVSS vectors that are mentioned in a text: place, text as given, canonical text';

CREATE FUNCTION cvss_check(text) RETURNS boolean
AS 'MODULE_PATHNAME', 'sql_cvss_check' LANGUAGE C IMMUTABLE STRICT PARALLEL SAFE;
COMMENT ON FUNCTION cvss_check(text) IS 'true where the text denotes a CVSS vector; else an error that tells the reason';

CREATE DOMAIN cvss_vector AS text CHECK (cvss_check(VALUE));
COMMENT ON DOMAIN cvss_vector IS 'a text that denotes a CVSS vector';
