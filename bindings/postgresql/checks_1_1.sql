-- Checks of a database at version 1.1 of the extension: each line has what is tried, and then t if it is as it must be.
CREATE TABLE known (v2 text, v3 text, v4 text, refused text);
INSERT INTO known VALUES ('AV:N/AC:L/Au:N/C:N/I:N/A:C', 'CVSS:3.1/AV:N/AC:L/PR:N/UI:N/S:U/C:H/I:H/A:H',
    'CVSS:4.0/AV:N/AC:L/AT:N/PR:N/UI:N/VC:L/VI:L/VA:L/SC:N/SI:N/SA:N', 'CVSS:3.1/AV:Q');

SELECT 'NULL gives NULL', coalesce(cvss_is_valid(NULL), cvss_check(NULL)) IS NULL,
    coalesce(cvss_canonical(NULL), cvss_version(NULL), cvss_severity(NULL), cvss_nomenclature(NULL),
        cvss_metric(NULL, 'AV'), cvss_metric(v3, NULL), cvss_with(NULL, 'CR:H'), cvss_with(v4, NULL),
        cvss_record(NULL)::text, cvss_account(NULL)::text, cvss_reason(NULL), cvss_reason(NULL, 'CR:H'), cvss_reason(v4, NULL),
    cvss_build(NULL, 'AV:N'), cvss_build('3.1', NULL), cvss_build_reason(NULL, 'AV:N'), cvss_strict_reason(NULL),
    cvss_severity_of(NULL), cvss_severity_of(NULL, '2.0'), cvss_severity_of(9.8, NULL)) IS NULL,
    coalesce(cvss_score(NULL), cvss_nomenclature_score(v4, NULL), cvss_temporal_score(NULL), cvss_environmental_score(NULL)) IS NULL,
    coalesce(cvss_tenths(NULL), cvss_severity_rank(NULL)) IS NULL, cvss_is_complete(NULL) IS NULL,
    cvss_without_undefined(NULL) IS NULL FROM known;
SELECT 'whole numbers', pg_typeof(cvss_tenths(v3)) = 'integer'::regtype, cvss_tenths(v3) = 98,
    pg_typeof(cvss_severity_rank(v3)) = 'integer'::regtype, cvss_severity_rank(v2) = 3, cvss_severity_rank(v3) = 4,
    cvss_is_complete(v3), NOT cvss_is_complete('CVSS:3.1/AV:N'),
    coalesce(cvss_tenths(refused), cvss_severity_rank(refused)) IS NULL AND cvss_is_complete(refused) IS NULL FROM known;
SELECT 'a name in any case', cvss_metric(v2, 'AU') = 'N', cvss_metric(v2, 'au') = 'N', cvss_metric(v2, 'Au') = 'N',
    cvss_metric(v4 || '/AU:Y', 'Au') = 'Y', cvss_metric(v4, 'AU') IS NULL, cvss_metric(v3, 'av') = 'N',
    cvss_metric(v3, 'vc') IS NULL, cvss_metric(refused, 'av') IS NULL FROM known;
SELECT 'names in words', cvss_metric_title(v4, 'vc') = 'Confidentiality Impact to the Vulnerable System',
    cvss_value_title(v4, 'vc') = 'Low', cvss_metric_title(v2, 'AU') = 'Authentication',
    cvss_value_title('CVSS:3.1/av:a', 'AV') = 'Adjacent', cvss_metric_title(v3, 'vc') IS NULL,
    cvss_value_title(v3, 'E') IS NULL, cvss_value_title(refused, 'AV') IS NULL FROM known;
SELECT 'scores have one decimal', cvss_score('CVSS:3.1/AV:N/AC:L/PR:N/UI:N/S:C/C:H/I:H/A:H')::text = '10.0',
    cvss_score('CVSS:3.1/C:N')::text = '0.0', pg_typeof(cvss_score(v3)) = 'numeric'::regtype FROM known;
SELECT 'no reason is cut', cvss_reason(repeat('x', 200000))
    = 'invalid CVSS metric group component: `' || repeat('x', 200000) || '`';
SELECT 'nor at the end of a buffer', bool_and(cvss_reason(told) = 'invalid CVSS metric group component: `' || told || '`'),
    min(length(cvss_reason(told))) < 2000, max(length(cvss_reason(told))) > 2048
    FROM (SELECT repeat('x', given) AS told FROM generate_series(1900, 2100) AS given) AS texts;
SELECT 'metrics that are set', cvss_with(v4, '') = v4, cvss_with(v4, 'msi:s/cr:h') = v4 || '/CR:H/MSI:S',
    cvss_with(v3, 'e:p') = v3 || '/E:P', cvss_with(v2, 'AV:L/E:ND') = 'AV:L/AC:L/Au:N/C:N/I:N/A:C/E:ND',
    cvss_with(v4, 'AV:P/E:U') = replace(v4, 'AV:N', 'AV:P') || '/E:U' FROM known;
SELECT 'metrics that are refused', cvss_with(v4, 'CR:H/AV:Q') IS NULL,
    cvss_reason(v4, 'CR:H/AV:Q') = 'metric 1: invalid CVSSv4 AV (Attack Vector) metric: `Q`', cvss_reason(v4, 'CR:H') IS NULL,
    cvss_reason(v3, 'VC:H') = 'metric 0: unknown CVSS metric name: `VC`', cvss_reason(v2, 'e:u') IS NOT NULL,
    cvss_reason(refused, 'CR:H') = cvss_reason(refused) FROM known;
SELECT 'vectors that are built', cvss_build('2.0', 'A:C/I:N/C:N/Au:N/AC:L/AV:N') = v2,
    cvss_build('3.1', 'a:h/i:h/c:h/s:u/ui:n/pr:n/ac:l/av:n') = v3, cvss_build('3.0', 'AV:N') = 'CVSS:3.0/AV:N',
    cvss_build('4.0', 'AV:N') IS NULL, cvss_build_reason('4.0', 'AV:N') LIKE 'missing mandatory CVSSv4 AC (%',
    cvss_build('5.0', 'AV:N') IS NULL, cvss_build_reason('5.0', 'AV:N') = 'unsupported CVSS version: 5.0',
    cvss_build_reason('3.1', 'AV:N') IS NULL FROM known;
SELECT 'scores of v4.0', cvss_nomenclature_score(v4 || '/E:U', 'CVSS-B') = cvss_score(v4),
    cvss_nomenclature_score(v4 || '/E:U', 'bt') = cvss_score(v4 || '/E:U'), cvss_nomenclature_score(v3, 'B') IS NULL,
    cvss_nomenclature_score(refused, 'B') IS NULL FROM known;
SELECT 'ratings of scores', cvss_severity_of(9.8) = 'critical', cvss_severity_of(9.8, '2.0') = 'high',
    cvss_severity_of(0) = 'none', cvss_severity_of(0.0, '2.0') = 'low', cvss_severity_of(10) = 'critical',
    cvss_severity_of(10.0) = 'critical', cvss_severity_of(6.90) = 'medium', cvss_severity_of(6.95) IS NULL,
    cvss_severity_of(10.1) IS NULL, cvss_severity_of(98) IS NULL, cvss_severity_of(-1) IS NULL,
    cvss_severity_of(9.8, '') IS NULL, cvss_severity_of(9.8, '5.0') IS NULL;
SELECT 'a strict reading', cvss_strict_reason(v2) IS NULL, cvss_strict_reason(v3) IS NULL, cvss_strict_reason(v4) IS NULL,
    cvss_strict_reason(refused) = cvss_reason(refused),
    cvss_strict_reason('CVSS:3.1/AV:N/AC:L') = 'missing mandatory CVSSv3 PR (Privileges Required) metric',
    cvss_strict_reason('CVSS:3.1/A:H') = 'missing mandatory CVSSv3 AV (Attack Vector) metric' FROM known;
SELECT 'a record is JSON', cvss_record(v3) -> 'baseScore' = '9.8', cvss_record(v3) ->> 'scope' = 'UNCHANGED' FROM known;
SELECT 'an account is JSON', abs((cvss_account(v3) -> 'base' ->> 'number')::numeric - 9.760161495) < 0.000001,
    cvss_account(v4) ->> 'macroVector' = '002201',
    cvss_account(refused) IS NULL FROM known;
SELECT 'vectors in a text', string_agg(concat_ws('|', place, given, vector), ' ') = '4|' || v2 || '|' || v2 || ' '
    || 4 + length(v2) || '|' || refused || ' ' || 6 + length(v2 || refused) || '|CVSS:3.1/s:c|CVSS:3.1/S:C',
    bool_and(substr(told, place, length(given)) = given)
    FROM (SELECT 'é (' || v2 || refused || '; CVSS:3.1/s:c.' AS told, v2, refused FROM known) AS texts, cvss_find(told)
    GROUP BY v2, refused;
SELECT 'no vector in a text', (SELECT count(*) FROM cvss_find('see CVSS:3.1 and AV:N/AC:L')) = 0,
    (SELECT count(*) FROM cvss_find('')) = 0, (SELECT count(*) FROM cvss_find(NULL)) = 0;
SELECT 'a long text', count(*) = 20000, count(vector) = 20000, max(place) = 1 + 19999 * (length(v2) + 2)
    FROM known, cvss_find(repeat(v2 || ', ', 20000)) GROUP BY v2;
SELECT 'a view over version 1.0', found::text = '(5,CVSS:3.1/S:U/AV:N,CVSS:3.1/AV:N/S:U)',
    pg_get_viewdef('found_by_1_0') LIKE '%cvss_find_1_0(%' FROM found_by_1_0 AS found;
SELECT 'rows that are not all asked for', given = v2 FROM known, cvss_find(repeat(v2 || ' ', 5)) LIMIT 1;
SELECT 'all are immutable, strict and parallel safe', bool_and(provolatile = 'i' AND proisstrict AND proparallel = 's'),
    count(*) = 29 FROM pg_proc WHERE proname LIKE 'cvss\_%';

CREATE TABLE kept (
    vector cvss_vector,
    score numeric(3,1) GENERATED ALWAYS AS (cvss_score(vector)) STORED
);
INSERT INTO kept SELECT v2 FROM known UNION ALL SELECT v3 FROM known UNION ALL SELECT NULL;
SELECT 'a domain and a column', string_agg(score::text, ',' ORDER BY score) = '7.8,9.8', count(*) = 3 FROM kept;

-- A text that is refused says why.
\set ON_ERROR_STOP off
INSERT INTO kept SELECT refused FROM known;
\echo :LAST_ERROR_SQLSTATE :LAST_ERROR_MESSAGE
SELECT 'not a vector'::cvss_vector;
\echo :LAST_ERROR_SQLSTATE :LAST_ERROR_MESSAGE
-- A name that no version has is a mistake of the query.
SELECT cvss_metric(v3, 'XX') FROM known;
\echo :LAST_ERROR_SQLSTATE :LAST_ERROR_MESSAGE
SELECT cvss_metric(refused, '') FROM known;
\echo :LAST_ERROR_SQLSTATE :LAST_ERROR_MESSAGE
\set ON_ERROR_STOP on
SELECT 'nothing that is refused is kept', count(*) = 3 FROM kept;

-- What the planner chooses, asked of its own account.
CREATE FUNCTION plan_of(query text) RETURNS text LANGUAGE plpgsql AS $$
DECLARE
    line text;
    told text := '';
BEGIN
    FOR line IN EXECUTE 'EXPLAIN (COSTS OFF) ' || query LOOP
        told := told || line || E'\n';
    END LOOP;
    RETURN told;
END $$;
CREATE TABLE many AS
SELECT 'CVSS:3.1/AV:N/AC:L/PR:N/UI:N/S:U/C:' || (ARRAY['N', 'L', 'H'])[place % 3 + 1] || '/I:N/A:N' AS vector
FROM generate_series(1, 30000) AS place;
INSERT INTO many VALUES ('CVSS:3.1/AV:N/AC:L/PR:N/UI:N/S:U/C:H/I:H/A:H'), ('n/a');
CREATE INDEX many_score ON many (cvss_score(vector));
ANALYZE many;
SELECT 'the index is used', plan_of('SELECT * FROM many WHERE cvss_score(vector) > 9') LIKE '%many_score%',
    (SELECT count(*) FROM many WHERE cvss_score(vector) > 9) = 1;
CREATE INDEX many_ranked ON many (cvss_score(vector) DESC NULLS LAST);
SELECT 'the first of a ranking by an index',
    plan_of('SELECT * FROM many ORDER BY cvss_score(vector) DESC NULLS LAST LIMIT 5') ~ 'Index Scan using many_ranked',
    plan_of('SELECT * FROM many ORDER BY cvss_score(vector) DESC NULLS LAST LIMIT 5') !~ 'Sort',
    (SELECT string_agg(coalesce(cvss_score(vector)::text, 'refused'), ',')
        FROM (SELECT vector FROM many ORDER BY cvss_score(vector) DESC NULLS LAST LIMIT 2) AS ranked) = '9.8,7.5',
    (SELECT vector FROM many ORDER BY cvss_score(vector) DESC LIMIT 1) = 'n/a';
SET parallel_setup_cost = 0;
SET parallel_tuple_cost = 0;
SET min_parallel_table_scan_size = 0;
SET max_parallel_workers_per_gather = 4;
SELECT 'a scan is parallel', plan_of('SELECT sum(cvss_score(vector)) FROM many') LIKE '%Parallel Seq Scan%',
    (SELECT sum(cvss_score(vector)) FROM many) = 10000 * (0.0 + 5.3 + 7.5) + 9.8;
SET jit_above_cost = 0;
SET jit_inline_above_cost = 0;
SET jit_optimize_above_cost = 0;
SET max_parallel_workers_per_gather = 0;
SELECT 'compiled queries', (SELECT sum(cvss_score(vector)) FROM many) = 10000 * (0.0 + 5.3 + 7.5) + 9.8;
