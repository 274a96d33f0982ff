-- Checks of the functions as they are registered: each line has what is tried, and then t if it is as it must be.
CREATE TABLE known (v2 text, v3 text, v4 text, rejected text);
INSERT INTO known VALUES ('AV:N/AC:L/Au:N/C:N/I:N/A:C', 'CVSS:3.1/AV:N/AC:L/PR:N/UI:N/S:U/C:H/I:H/A:H',
    'CVSS:4.0/AV:N/AC:L/AT:N/PR:N/UI:N/VC:L/VI:L/VA:L/SC:N/SI:N/SA:N', 'CVSS:3.1/AV:Q');

SELECT 'NULL gives NULL', coalesce(cvss_is_valid(NULL), cvss_check(NULL)) IS NULL,
    coalesce(cvss_canonical(NULL), cvss_version(NULL), cvss_severity(NULL), cvss_nomenclature(NULL), cvss_base_severity(NULL),
        cvss_temporal_severity(NULL), cvss_environmental_severity(NULL), cvss_canonical(v3, NULL), cvss_error(NULL, true),
        cvss_error(rejected, NULL), cvss_metric(v3, 'AV', NULL), cvss_with_metrics(v4, 'CR:H', NULL),
        cvss_from_metrics('3.1', 'AV:N', NULL),
        cvss_metric(NULL, 'AV'), cvss_metric(v3, NULL), cvss_with_metrics(NULL, 'CR:H'), cvss_with_metrics(v4, NULL),
        cvss_record(NULL)::text, cvss_explain(NULL)::text, cvss_error(NULL), cvss_with_metrics_error(NULL, 'CR:H'),
    cvss_with_metrics_error(v4, NULL),
    cvss_from_metrics(NULL, 'AV:N'), cvss_from_metrics('3.1', NULL), cvss_from_metrics_error(NULL, 'AV:N'),
    cvss_severity_of(NULL), cvss_severity_of(NULL, '2.0'), cvss_severity_of(9.8, NULL)) IS NULL,
    coalesce(cvss_score(NULL), cvss_score(v3, NULL), cvss_base_score(NULL), cvss_nomenclature_score(v4, NULL),
    cvss_temporal_score(NULL), cvss_environmental_score(NULL)) IS NULL,
    coalesce(cvss_tenths(NULL), cvss_severity_rank(NULL)) IS NULL, cvss_is_complete(NULL) IS NULL,
    cvss_without_not_defined(NULL) IS NULL FROM known;
SELECT 'whole numbers', pg_typeof(cvss_tenths(v3)) = 'integer'::regtype, cvss_tenths(v3) = 98,
    pg_typeof(cvss_severity_rank(v3)) = 'integer'::regtype, cvss_severity_rank(v2) = 3, cvss_severity_rank(v3) = 4,
    cvss_is_complete(v3), NOT cvss_is_complete('CVSS:3.1/AV:N'),
    coalesce(cvss_tenths(rejected), cvss_severity_rank(rejected)) IS NULL AND cvss_is_complete(rejected) IS NULL FROM known;
SELECT 'a name in any case', cvss_metric(v2, 'AU') = 'N', cvss_metric(v2, 'au') = 'N', cvss_metric(v2, 'Au') = 'N',
    cvss_metric(v4 || '/AU:Y', 'Au') = 'Y', cvss_metric(v4, 'AU') IS NULL, cvss_metric(v3, 'av') = 'N',
    cvss_metric(v3, 'vc') IS NULL, cvss_metric(rejected, 'av') IS NULL FROM known;
SELECT 'names in words', cvss_metric_title(v4, 'vc') = 'Confidentiality Impact to the Vulnerable System',
    cvss_value_title(v4, 'vc') = 'Low', cvss_metric_title(v2, 'AU') = 'Authentication',
    cvss_value_title('CVSS:3.1/av:a', 'AV', true) = 'Adjacent', cvss_metric_title(v3, 'vc') IS NULL,
    cvss_value_title(v3, 'E') IS NULL, cvss_value_title(rejected, 'AV') IS NULL FROM known;
SELECT 'scores have one decimal', cvss_score('CVSS:3.1/AV:N/AC:L/PR:N/UI:N/S:C/C:H/I:H/A:H')::text = '10.0',
    cvss_score('CVSS:3.1/C:N', true)::text = '0.0', pg_typeof(cvss_score(v3)) = 'numeric'::regtype FROM known;
SELECT 'no message is cut', cvss_error(repeat('x', 200000))
    = 'invalid CVSS metric group component: `' || repeat('x', 200000) || '`';
SELECT 'nor at the end of a buffer', bool_and(cvss_error(long) = 'invalid CVSS metric group component: `' || long || '`'),
    min(length(cvss_error(long))) < 2000, max(length(cvss_error(long))) > 2048
    FROM (SELECT repeat('x', size) AS long FROM generate_series(1900, 2100) AS size) AS texts;
SELECT 'metrics that are set', cvss_with_metrics(v4, '') = v4, cvss_with_metrics(v4, 'msi:s/cr:h') = v4 || '/CR:H/MSI:S',
    cvss_with_metrics(v3, 'e:p') = v3 || '/E:P', cvss_with_metrics(v2, 'AV:L/E:ND') = 'AV:L/AC:L/Au:N/C:N/I:N/A:C/E:ND',
    cvss_with_metrics(v4, 'AV:P/E:U') = replace(v4, 'AV:N', 'AV:P') || '/E:U' FROM known;
SELECT 'metrics that are rejected', cvss_with_metrics(v4, 'CR:H/AV:Q') IS NULL,
    cvss_with_metrics_error(v4, 'CR:H/AV:Q') = 'invalid CVSSv4 AV (Attack Vector) metric: `Q`', cvss_with_metrics_error(v4,
    'CR:H') IS NULL,
    cvss_with_metrics_error(v3, 'VC:H') = 'unknown CVSS metric name: `VC`', cvss_with_metrics_error(v2, 'e:u') IS NOT NULL,
    cvss_with_metrics_error(rejected, 'CR:H') = cvss_error(rejected) FROM known;
SELECT 'vectors of metrics', cvss_from_metrics('2.0', 'A:C/I:N/C:N/Au:N/AC:L/AV:N') = v2,
    cvss_from_metrics('3.1', 'a:h/i:h/c:h/s:u/ui:n/pr:n/ac:l/av:n') = v3, cvss_from_metrics('3.0', 'AV:N',
    true) = 'CVSS:3.0/AV:N',
    cvss_from_metrics('4.0', 'AV:N') IS NULL, cvss_from_metrics_error('4.0', 'AV:N') LIKE 'missing mandatory CVSSv4 AC (%',
    cvss_from_metrics('5.0', 'AV:N') IS NULL, cvss_from_metrics_error('5.0', 'AV:N') = 'unsupported CVSS version: 5.0',
    cvss_from_metrics_error('3.1', 'AV:N', true) IS NULL,
    cvss_from_metrics('3.1', 'AV:N') IS NULL,
    cvss_from_metrics_error('3.1', 'AV:N') = 'missing mandatory CVSSv3 AC (Attack Complexity) metric' FROM known;
SELECT 'scores of v4.0', cvss_nomenclature_score(v4 || '/E:U', 'CVSS-B') = cvss_score(v4),
    cvss_nomenclature_score(v4 || '/E:U', 'bt') = cvss_score(v4 || '/E:U'), cvss_nomenclature_score(v3, 'B') IS NULL,
    cvss_nomenclature_score(rejected, 'B') IS NULL FROM known;
SELECT 'severities of scores', cvss_severity_of(9.8) = 'critical', cvss_severity_of(9.8, '2.0') = 'high',
    cvss_severity_of(0) = 'none', cvss_severity_of(0.0, '2.0') = 'low', cvss_severity_of(10) = 'critical',
    cvss_severity_of(10.0) = 'critical', cvss_severity_of(6.90) = 'medium', cvss_severity_of(6.95) IS NULL,
    cvss_severity_of(10.1) IS NULL, cvss_severity_of(98) IS NULL, cvss_severity_of(-1) IS NULL,
    cvss_severity_of(9.8, '') IS NULL, cvss_severity_of(9.8, '5.0') IS NULL;
SELECT 'complete vectors', cvss_is_valid(cut) = false, cvss_is_valid(cut, false) = false, cvss_is_valid(cut, true),
    coalesce(cvss_canonical(cut), cvss_version(cut), cvss_severity(cut), cvss_base_severity(cut), cvss_temporal_severity(cut),
        cvss_environmental_severity(cut), cvss_metric(cut, 'AV'), cvss_metric_title(cut, 'AV'), cvss_value_title(cut, 'AV'),
        cvss_without_not_defined(cut), cvss_with_metrics(cut, 'E:U'), cvss_record(cut)::text, cvss_explain(cut)::text) IS NULL,
    coalesce(cvss_score(cut), cvss_base_score(cut), cvss_temporal_score(cut), cvss_environmental_score(cut), cvss_tenths(cut),
        cvss_severity_rank(cut)) IS NULL,
    cvss_error(cut) = 'missing mandatory CVSSv3 A (Availability Impact) metric', cvss_error(cut, false) = cvss_error(cut),
    cvss_error(cut, true) IS NULL, cvss_error(rejected, true) = cvss_error(rejected),
    cvss_error('CVSS:3.1/A:H') = 'missing mandatory CVSSv3 AV (Attack Vector) metric'
    FROM known, (SELECT replace(v3, '/A:H', '') AS cut FROM known) AS one;
SELECT 'incomplete vectors', cvss_canonical(cut, true) = cut, cvss_version(cut, true) = '3.1', cvss_score(cut, true) = 7.5,
    cvss_tenths(cut, true) = 75, cvss_severity(cut, true) = 'high', cvss_severity_rank(cut, true) = 3,
    cvss_base_score(cut, true) = 7.5, cvss_base_severity(cut, true) = 'high', cvss_temporal_score(cut, true) = 7.5,
    cvss_temporal_severity(cut, true) = 'high', cvss_environmental_score(cut, true) = 7.5,
    cvss_environmental_severity(cut, true) = 'high', cvss_metric(cut, 'AV', true) = 'N', cvss_metric(cut, 'I', true) IS NULL,
    cvss_metric_title(cut, 'AV', true) = 'Attack Vector', cvss_value_title(cut, 'AV', true) = 'Network',
    cvss_without_not_defined(cut || '/E:X', true) = cut, cvss_with_metrics(cut, 'E:U', true) = cut || '/E:U',
    cvss_record(cut, true)::text LIKE '%CVSS:3.1/AV:N%', cvss_explain(cut, true)::text LIKE '%CVSS:3.1/AV:N%'
    FROM (SELECT 'CVSS:3.1/AV:N/AC:L/PR:N/UI:N/S:U/C:H' AS cut) AS one;
SELECT 'a vector that gets complete', cvss_with_metrics('CVSS:3.1/AV:N', 'A:H/I:H/C:H/S:U/UI:N/PR:N/AC:L') = v3,
    cvss_with_metrics_error('CVSS:3.1/AV:N', 'A:H/I:H/C:H/S:U/UI:N/PR:N/AC:L') IS NULL,
    cvss_with_metrics_error('CVSS:3.1/AV:N', 'A:H') = 'missing mandatory CVSSv3 AC (Attack Complexity) metric',
    cvss_with_metrics_error('CVSS:3.1/AV:N', 'A:H', true) IS NULL FROM known;
SELECT 'all scores', cvss_score(v2 || '/E:U') = 6.6, cvss_base_score(v2 || '/E:U') = 7.8,
    cvss_severity(v2 || '/E:U') = 'medium',
    cvss_base_severity(v2 || '/E:U') = 'high', cvss_score(v2 || '/E:U/TD:L') = 1.7,
    cvss_temporal_score(v2 || '/E:U/TD:L') = 6.6,
    cvss_score(v3 || '/E:U') = 9.0, cvss_tenths(v3 || '/E:U') = 90, cvss_score(v3 || '/E:U/MAV:P') = 6.2,
    cvss_severity(v3 || '/E:U/MAV:P') = 'medium', cvss_severity_rank(v3 || '/E:U/MAV:P') = 2,
    cvss_base_severity(v3 || '/E:U/MAV:P') = 'critical', cvss_temporal_severity(v3 || '/E:U/MAV:P') = 'critical',
    cvss_environmental_severity(v3 || '/E:U/MAV:P') = 'medium', cvss_score(v3 || '/E:U/MAV:X') = 9.0,
    cvss_score(v4 || '/E:U') = 2.7, cvss_base_score(v4 || '/E:U') = 6.9, cvss_base_severity(v4 || '/E:U') = 'medium',
    cvss_severity(v4 || '/E:U') = 'low', cvss_temporal_score(v4 || '/E:U') IS NULL, cvss_temporal_severity(v4) IS NULL,
    cvss_environmental_score(v4) IS NULL, cvss_environmental_severity(v4) IS NULL FROM known;
SELECT 'a record is JSON', cvss_record(v3) -> 'baseScore' = '9.8', cvss_record(v3) ->> 'scope' = 'UNCHANGED' FROM known;
SELECT 'an explanation is JSON', abs((cvss_explain(v3) -> 'base' ->> 'number')::numeric - 9.760161495) < 0.000001,
    cvss_explain(v4) ->> 'macroVector' = '002201',
    cvss_explain(rejected) IS NULL FROM known;
SELECT 'vectors in a text', string_agg(concat_ws('|', match_offset, found.text, vector, is_complete, error), ' ')
    = '4|' || v2 || '|' || v2 || '|t ' || 4 + length(v2) || '|' || rejected || '|' || cvss_error(rejected) || ' '
    || 6 + length(v2 || rejected) || '|CVSS:3.1/s:c|' || cvss_error('CVSS:3.1/S:C'),
    bool_and(substr(note, match_offset, length(found.text)) = found.text)
    FROM (SELECT 'é (' || v2 || rejected || '; CVSS:3.1/s:c.' AS note, v2, rejected FROM known) AS texts,
    cvss_find(note) AS found
    GROUP BY v2, rejected;
SELECT 'incomplete vectors in a text', string_agg(concat_ws('|', vector, is_complete, error), ' ')
    = v2 || '|t ' || cvss_error(rejected) || ' CVSS:3.1/S:C|f'
    FROM (SELECT 'é (' || v2 || rejected || '; CVSS:3.1/s:c.' AS note, v2, rejected FROM known) AS texts, cvss_find(note, true)
    GROUP BY v2, rejected;
SELECT 'no vector in a text', (SELECT count(*) FROM cvss_find('see CVSS:3.1 and AV:N/AC:L')) = 0,
    (SELECT count(*) FROM cvss_find('')) = 0, (SELECT count(*) FROM cvss_find(NULL)) = 0,
    (SELECT count(*) FROM cvss_find(v2, NULL)) = 0 FROM known;
SELECT 'a part is searched once', count(*) = 1, min(vector) = v3 FROM known,
    cvss_find('https://example.org/?v3=' || v3 || '%20v2:' || v2)
    GROUP BY v3;
SELECT 'several texts, short and long', string_agg(length(coalesce(vector, error))::text, ',' ORDER BY number) = '26,3079,26,54'
    FROM (SELECT 1 AS number, v2 AS note FROM known UNION ALL SELECT 2, 'CVSS:3.1/' || repeat('AV', 1520)
    UNION ALL SELECT 3, v2 FROM known UNION ALL SELECT 4, 'CVSS:3.1/AV:N/A:H') AS texts, cvss_find(note);
SELECT 'a long text', count(*) = 20000, count(vector) = 20000, max(match_offset) = 1 + 19999 * (length(v2) + 2)
    FROM known, cvss_find(repeat(v2 || ', ', 20000)) GROUP BY v2;
SELECT 'rows that are not all asked for', found.text = v2 FROM known, cvss_find(repeat(v2 || ' ', 5)) AS found LIMIT 1;
SELECT 'all are immutable, strict and parallel safe', bool_and(provolatile = 'i' AND proisstrict AND proparallel = 's'),
    count(*) = 59 FROM pg_proc WHERE proname LIKE 'cvss\_%';

CREATE TABLE kept (
    vector cvss_vector,
    score numeric(3,1) GENERATED ALWAYS AS (cvss_score(vector)) STORED
);
INSERT INTO kept SELECT v2 FROM known UNION ALL SELECT v3 FROM known UNION ALL SELECT NULL;
SELECT 'a domain and a column', string_agg(score::text, ',' ORDER BY score) = '7.8,9.8', count(*) = 3 FROM kept;

-- Of a text that is rejected the error says why.
\set ON_ERROR_STOP off
INSERT INTO kept SELECT rejected FROM known;
\echo :LAST_ERROR_SQLSTATE :LAST_ERROR_MESSAGE
SELECT 'not a vector'::cvss_vector;
\echo :LAST_ERROR_SQLSTATE :LAST_ERROR_MESSAGE
-- A domain that accepts incomplete vectors is made with the other check.
SELECT 'CVSS:3.1/AV:N'::cvss_vector;
\echo :LAST_ERROR_SQLSTATE :LAST_ERROR_MESSAGE
CREATE DOMAIN any_vector AS text CHECK (cvss_check(VALUE, true));
SELECT 'CVSS:3.1/AV:N'::any_vector, cvss_check('CVSS:3.1/AV:N', true);
SELECT 'CVSS:3.1/AV:Q'::any_vector;
\echo :LAST_ERROR_SQLSTATE :LAST_ERROR_MESSAGE
-- A name that no version has is a mistake of the query.
SELECT cvss_metric(v3, 'XX') FROM known;
\echo :LAST_ERROR_SQLSTATE :LAST_ERROR_MESSAGE
SELECT cvss_metric(rejected, '') FROM known;
\echo :LAST_ERROR_SQLSTATE :LAST_ERROR_MESSAGE
SELECT cvss_nomenclature_score(v4, 'CVSS-X', true) FROM known;
\echo :LAST_ERROR_SQLSTATE :LAST_ERROR_MESSAGE
\set ON_ERROR_STOP on
SELECT 'nothing that is rejected is kept', count(*) = 3 FROM kept;

-- What the planner chooses, by its own report.
CREATE FUNCTION plan_of(query text) RETURNS text LANGUAGE plpgsql AS $$
DECLARE
    line text;
    told text := '';
BEGIN
    FOR line IN EXECUTE 'EXPLAIN (COSTS OFF) ' || query LOOP
        told := told || line || E'\n';
    END LOOP;
    RETURN told;
END $$;
CREATE TABLE many AS
SELECT 'CVSS:3.1/AV:N/AC:L/PR:N/UI:N/S:U/C:' || (ARRAY['N', 'L', 'H'])[place % 3 + 1] || '/I:N/A:N' AS vector
FROM generate_series(1, 30000) AS place;
INSERT INTO many VALUES ('CVSS:3.1/AV:N/AC:L/PR:N/UI:N/S:U/C:H/I:H/A:H'), ('n/a');
CREATE INDEX many_score ON many (cvss_score(vector));
ANALYZE many;
SELECT 'the index is used', plan_of('SELECT * FROM many WHERE cvss_score(vector) > 9') LIKE '%many_score%',
    (SELECT count(*) FROM many WHERE cvss_score(vector) > 9) = 1;
CREATE INDEX many_ranked ON many (cvss_score(vector) DESC NULLS LAST);
SELECT 'the first of a ranking by an index',
    plan_of('SELECT * FROM many ORDER BY cvss_score(vector) DESC NULLS LAST LIMIT 5') ~ 'Index Scan using many_ranked',
    plan_of('SELECT * FROM many ORDER BY cvss_score(vector) DESC NULLS LAST LIMIT 5') !~ 'Sort',
    (SELECT string_agg(coalesce(cvss_score(vector)::text, 'rejected'), ',')
        FROM (SELECT vector FROM many ORDER BY cvss_score(vector) DESC NULLS LAST LIMIT 2) AS ranked) = '9.8,7.5',
    (SELECT vector FROM many ORDER BY cvss_score(vector) DESC LIMIT 1) = 'n/a';
SET parallel_setup_cost = 0;
SET parallel_tuple_cost = 0;
SET min_parallel_table_scan_size = 0;
SET max_parallel_workers_per_gather = 4;
SELECT 'a scan is parallel', plan_of('SELECT sum(cvss_score(vector)) FROM many') LIKE '%Parallel Seq Scan%',
    (SELECT sum(cvss_score(vector)) FROM many) = 10000 * (0.0 + 5.3 + 7.5) + 9.8;
SET jit_above_cost = 0;
SET jit_inline_above_cost = 0;
SET jit_optimize_above_cost = 0;
SET max_parallel_workers_per_gather = 0;
SELECT 'compiled queries', (SELECT sum(cvss_score(vector)) FROM many) = 10000 * (0.0 + 5.3 + 7.5) + 9.8;
