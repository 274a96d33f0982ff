-- Checks of the functions as they are registered: each line has what is tried, and then 1 if it is as it must be.
CREATE TABLE known (v2 TEXT, v3 TEXT, v4 TEXT, rejected TEXT);
INSERT INTO known VALUES ('AV:N/AC:L/Au:N/C:N/I:N/A:C', 'CVSS:3.1/AV:N/AC:L/PR:N/UI:N/S:U/C:H/I:H/A:H',
    'CVSS:4.0/AV:N/AC:L/AT:N/PR:N/UI:N/VC:L/VI:L/VA:L/SC:N/SI:N/SA:N', 'CVSS:3.1/AV:Q');

SELECT 'NULL gives NULL', coalesce(cvss_is_valid(NULL), cvss_canonical(NULL), cvss_version(NULL), cvss_score(NULL),
    cvss_base_score(NULL), cvss_temporal_score(NULL), cvss_environmental_score(NULL), cvss_severity(NULL),
    cvss_base_severity(NULL),
    cvss_temporal_severity(NULL), cvss_environmental_severity(NULL), cvss_score(v3, NULL), cvss_is_valid(v3, NULL),
    cvss_error(NULL, true),
    cvss_error(rejected, NULL), cvss_metric(v3, 'AV', NULL), cvss_with_metrics(v4, 'CR:H', NULL), cvss_from_metrics('3.1',
    'AV:N', NULL), cvss_nomenclature(NULL),
    cvss_tenths(NULL), cvss_is_complete(NULL), cvss_severity_rank(NULL), cvss_without_not_defined(NULL),
    cvss_metric(NULL, 'AV'), cvss_metric(v3, NULL), cvss_with_metrics(NULL, 'CR:H'), cvss_with_metrics(v4, NULL),
    cvss_record(NULL),
    cvss_explain(NULL), cvss_error(NULL), cvss_with_metrics_error(NULL, 'CR:H'), cvss_with_metrics_error(v4, NULL),
    cvss_nomenclature_score(v4, NULL),
    cvss_from_metrics(NULL, 'AV:N'), cvss_from_metrics('3.1', NULL), cvss_from_metrics_error(NULL, 'AV:N'),
    cvss_severity_of(NULL), cvss_severity_of(NULL, '2.0'), cvss_severity_of(9.8, NULL)) IS NULL FROM known;
SELECT 'types', typeof(cvss_is_valid(v3)) || typeof(cvss_score(v3)) || typeof(cvss_severity(v3)) = 'integerrealtext'
    FROM known;
SELECT 'whole numbers', typeof(cvss_tenths(v3)) = 'integer', cvss_tenths(v3) = 98,
    typeof(cvss_severity_rank(v3)) = 'integer', cvss_severity_rank(v2) = 3, cvss_severity_rank(v3) = 4,
    typeof(cvss_is_complete(v3)) = 'integer', cvss_is_complete(v3) = 1, cvss_is_complete('CVSS:3.1/AV:N') = 0,
    coalesce(cvss_tenths(rejected), cvss_severity_rank(rejected), cvss_is_complete(rejected)) IS NULL FROM known;
SELECT 'a name in any case', cvss_metric(v2, 'AU') = 'N', cvss_metric(v2, 'au') = 'N', cvss_metric(v2, 'Au') = 'N',
    cvss_metric(v4 || '/AU:Y', 'Au') = 'Y', cvss_metric(v4, 'AU') IS NULL, cvss_metric(v3, 'av') = 'N',
    cvss_metric(v3, 'vc') IS NULL, cvss_metric(rejected, 'av') IS NULL FROM known;
SELECT 'names in words', cvss_metric_title(v4, 'vc') = 'Confidentiality Impact to the Vulnerable System',
    cvss_value_title(v4, 'vc') = 'Low', cvss_metric_title(v2, 'AU') = 'Authentication',
    cvss_value_title('CVSS:3.1/av:a', 'AV', true) = 'Adjacent', cvss_metric_title(v3, 'vc') IS NULL,
    cvss_value_title(v3, 'E') IS NULL, cvss_value_title(rejected, 'AV') IS NULL FROM known;
SELECT 'exact sums', sum(cvss_tenths(v2)) = 780000 FROM known, cvss_find(replace(hex(zeroblob(5000)), '0', v2 || ', '));
SELECT 'a blob', cvss_score(CAST(v3 AS BLOB)) = 9.8, cvss_is_valid(x'') = 0, cvss_is_valid(zeroblob(9)) = 0 FROM known;
SELECT 'a number', cvss_error(9.8) = 'invalid CVSS metric group component: `9.8`',
    cvss_error(-5) = 'invalid CVSS metric group component: `-5`';
SELECT 'a byte 0', cvss_is_valid(v2 || char(0)) = 0, cvss_is_valid(v2 || char(0) || '/E:U') = 0,
    cvss_is_valid(CAST(v2 || char(0) AS BLOB)) = 0,
    hex(cvss_error('CVSS:3.1/AV:N' || char(0)))
        = hex('invalid CVSSv3 AV (Attack Vector) metric: `N' || char(0) || '`') FROM known;
SELECT 'bytes that are no text', cvss_error(x'41563A80') = 'not UTF-8', cvss_error(CAST(x'FF' AS TEXT)) = 'not UTF-8';
SELECT 'no message is cut', cvss_error(hex(zeroblob(100000)))
    = 'invalid CVSS metric group component: `' || hex(zeroblob(100000)) || '`';
WITH RECURSIVE texts(long) AS (SELECT hex(zeroblob(950)) UNION ALL SELECT long || '0' FROM texts LIMIT 200)
SELECT 'nor at the end of a buffer', min(cvss_error(long) = 'invalid CVSS metric group component: `' || long || '`'),
    min(length(cvss_error(long))) < 2000, max(length(cvss_error(long))) > 2048 FROM texts;
SELECT 'metrics that are set', cvss_with_metrics(v4, '') = v4, cvss_with_metrics(v4, 'msi:s/cr:h') = v4 || '/CR:H/MSI:S',
    cvss_with_metrics(v4, CAST('CR:H' AS BLOB)) = v4 || '/CR:H',
    cvss_with_metrics(v3, 'e:p') = v3 || '/E:P', cvss_with_metrics(v2, 'AV:L/E:ND') = 'AV:L/AC:L/Au:N/C:N/I:N/A:C/E:ND',
    cvss_with_metrics(v4, 'AV:P/E:U') = replace(v4, 'AV:N', 'AV:P') || '/E:U' FROM known;
SELECT 'metrics that are rejected', cvss_with_metrics(v4, 'CR:H/AV:Q') IS NULL,
    cvss_with_metrics_error(v4, 'CR:H/AV:Q') = 'invalid CVSSv4 AV (Attack Vector) metric: `Q`', cvss_with_metrics_error(v4,
    'CR:H') IS NULL,
    cvss_with_metrics_error(v3, 'VC:H') = 'unknown CVSS metric name: `VC`', cvss_with_metrics_error(v2, 'e:u') IS NOT NULL,
    cvss_with_metrics_error(rejected, 'CR:H') = cvss_error(rejected) FROM known;
SELECT 'vectors of metrics', cvss_from_metrics('2.0', 'A:C/I:N/C:N/Au:N/AC:L/AV:N') = v2,
    cvss_from_metrics('3.1', 'a:h/i:h/c:h/s:u/ui:n/pr:n/ac:l/av:n') = v3, cvss_from_metrics('3.0', 'AV:N',
    true) = 'CVSS:3.0/AV:N',
    cvss_from_metrics('4.0', 'AV:N') IS NULL, cvss_from_metrics_error('4.0', 'AV:N') LIKE 'missing mandatory CVSSv4 AC (%',
    cvss_from_metrics('5.0', 'AV:N') IS NULL, cvss_from_metrics_error('5.0', 'AV:N') = 'unsupported CVSS version: 5.0',
    cvss_from_metrics_error('3.1', 'AV:N', true) IS NULL,
    cvss_from_metrics('3.1', 'AV:N') IS NULL,
    cvss_from_metrics_error('3.1', 'AV:N') = 'missing mandatory CVSSv3 AC (Attack Complexity) metric' FROM known;
SELECT 'scores of v4.0', cvss_nomenclature_score(v4 || '/E:U', 'CVSS-B') = cvss_score(v4),
    cvss_nomenclature_score(v4 || '/E:U', 'bt') = cvss_score(v4 || '/E:U'), cvss_nomenclature_score(v3, 'B') IS NULL,
    cvss_nomenclature_score(rejected, 'B') IS NULL FROM known;
SELECT 'severities of scores', cvss_severity_of(9.8) = 'critical', cvss_severity_of(9.8, '2.0') = 'high',
    cvss_severity_of(0) = 'none', cvss_severity_of(0.0, '2.0') = 'low', cvss_severity_of(10) = 'critical',
    cvss_severity_of(10.0) = 'critical', cvss_severity_of(6.90) = 'medium', cvss_severity_of(6.95) IS NULL,
    cvss_severity_of(10.1) IS NULL, cvss_severity_of(98) IS NULL, cvss_severity_of(-1) IS NULL,
    cvss_severity_of(9.8, '') IS NULL, cvss_severity_of(9.8, '5.0') IS NULL;
SELECT 'complete vectors', cvss_is_valid(cut) = 0, cvss_is_valid(cut, false) = 0, cvss_is_valid(cut, true) = 1,
    coalesce(cvss_canonical(cut), cvss_version(cut), cvss_severity(cut), cvss_base_severity(cut), cvss_temporal_severity(cut),
        cvss_environmental_severity(cut), cvss_metric(cut, 'AV'), cvss_metric_title(cut, 'AV'), cvss_value_title(cut, 'AV'),
        cvss_without_not_defined(cut), cvss_with_metrics(cut, 'E:U'), cvss_record(cut), cvss_explain(cut)) IS NULL,
    coalesce(cvss_score(cut), cvss_base_score(cut), cvss_temporal_score(cut), cvss_environmental_score(cut), cvss_tenths(cut),
        cvss_severity_rank(cut)) IS NULL,
    cvss_error(cut) = 'missing mandatory CVSSv3 A (Availability Impact) metric', cvss_error(cut, false) = cvss_error(cut),
    cvss_error(cut, true) IS NULL, cvss_error(rejected, true) = cvss_error(rejected),
    cvss_error('CVSS:3.1/A:H') = 'missing mandatory CVSSv3 AV (Attack Vector) metric'
    FROM known, (SELECT replace(v3, '/A:H', '') AS cut FROM known) AS one;
SELECT 'incomplete vectors', cvss_canonical(cut, true) = cut, cvss_version(cut, true) = '3.1', cvss_score(cut, true) = 7.5,
    cvss_tenths(cut, true) = 75, cvss_severity(cut, true) = 'high', cvss_severity_rank(cut, true) = 3,
    cvss_base_score(cut, true) = 7.5, cvss_base_severity(cut, true) = 'high', cvss_temporal_score(cut, true) = 7.5,
    cvss_temporal_severity(cut, true) = 'high', cvss_environmental_score(cut, true) = 7.5,
    cvss_environmental_severity(cut, true) = 'high', cvss_metric(cut, 'AV', true) = 'N', cvss_metric(cut, 'I', true) IS NULL,
    cvss_metric_title(cut, 'AV', true) = 'Attack Vector', cvss_value_title(cut, 'AV', true) = 'Network',
    cvss_without_not_defined(cut || '/E:X', true) = cut, cvss_with_metrics(cut, 'E:U', true) = cut || '/E:U',
    cvss_record(cut, true) LIKE '%CVSS:3.1/AV:N%', cvss_explain(cut, true) LIKE '%CVSS:3.1/AV:N%'
    FROM (SELECT 'CVSS:3.1/AV:N/AC:L/PR:N/UI:N/S:U/C:H' AS cut) AS one;
SELECT 'a vector that gets complete', cvss_with_metrics('CVSS:3.1/AV:N', 'A:H/I:H/C:H/S:U/UI:N/PR:N/AC:L') = v3,
    cvss_with_metrics_error('CVSS:3.1/AV:N', 'A:H/I:H/C:H/S:U/UI:N/PR:N/AC:L') IS NULL,
    cvss_with_metrics_error('CVSS:3.1/AV:N', 'A:H') = 'missing mandatory CVSSv3 AC (Attack Complexity) metric',
    cvss_with_metrics_error('CVSS:3.1/AV:N', 'A:H', true) IS NULL FROM known;
SELECT 'all scores', cvss_score(v2 || '/E:U') = 6.6, cvss_base_score(v2 || '/E:U') = 7.8,
    cvss_severity(v2 || '/E:U') = 'medium',
    cvss_base_severity(v2 || '/E:U') = 'high', cvss_score(v2 || '/E:U/TD:L') = 1.7,
    cvss_temporal_score(v2 || '/E:U/TD:L') = 6.6,
    cvss_score(v3 || '/E:U') = 9.0, cvss_tenths(v3 || '/E:U') = 90, cvss_score(v3 || '/E:U/MAV:P') = 6.2,
    cvss_severity(v3 || '/E:U/MAV:P') = 'medium', cvss_severity_rank(v3 || '/E:U/MAV:P') = 2,
    cvss_base_severity(v3 || '/E:U/MAV:P') = 'critical', cvss_temporal_severity(v3 || '/E:U/MAV:P') = 'critical',
    cvss_environmental_severity(v3 || '/E:U/MAV:P') = 'medium', cvss_score(v3 || '/E:U/MAV:X') = 9.0,
    cvss_score(v4 || '/E:U') = 2.7, cvss_base_score(v4 || '/E:U') = 6.9, cvss_base_severity(v4 || '/E:U') = 'medium',
    cvss_severity(v4 || '/E:U') = 'low', cvss_temporal_score(v4 || '/E:U') IS NULL, cvss_temporal_severity(v4) IS NULL,
    cvss_environmental_score(v4) IS NULL, cvss_environmental_severity(v4) IS NULL FROM known;
SELECT 'a record is JSON', json_extract(cvss_record(v3), '$.baseScore') = 9.8,
    json_type(json_object('cvss', cvss_record(v3)), '$.cvss') = 'object' FROM known;
SELECT 'an explanation is JSON', abs(json_extract(cvss_explain(v3), '$.base.number') - 9.760161495) < 0.000001,
    json_type(json_array(cvss_explain(v4)), '$[0].groups') = 'array', cvss_explain(rejected) IS NULL FROM known;

CREATE TABLE notes AS SELECT 'é (' || v2 || rejected || '; CVSS:3.1/s:c.' AS note FROM known;
SELECT 'vectors in a text', group_concat(match_offset || '|' || text || '|' || coalesce(vector, '') || '|'
    || coalesce(is_complete, '') || '|' || coalesce(error, ''),
    ' ') = '4|' || v2 || '|' || v2 || '|1| ' || (4 + length(v2)) || '|'
    || rejected || '|||' || cvss_error(rejected) || ' ' || (6 + length(v2 || rejected)) || '|CVSS:3.1/s:c|||'
    || cvss_error('CVSS:3.1/S:C'),
    min(substr(note, match_offset, length(text)) = text), min(cvss_text = note), max(allow_incomplete) = 0
    FROM known, notes, cvss_find(note);
SELECT 'incomplete vectors in a text', group_concat(coalesce(vector, '-') || coalesce(is_complete, '-') || coalesce(error,
    ''), ' ')
    = v2 || '1 --' || cvss_error(rejected) || ' CVSS:3.1/S:C0', min(allow_incomplete) = 1 FROM known, notes, cvss_find(note,
    true);
SELECT 'columns in any order', error IS NULL, is_complete = 1, vector = v2, text = v2, error IS NULL, match_offset = 1
    FROM known, cvss_find(v2);
SELECT 'a blob is counted by bytes', group_concat(match_offset) = '5,' || (5 + length(v2)) || ',' || (7 + length(v2 || rejected))
    FROM known, notes, cvss_find(CAST(note AS BLOB));
SELECT 'no vector in a text', (SELECT count(*) FROM cvss_find('see CVSS:3.1 and AV:N/AC:L')) = 0,
    (SELECT count(*) FROM cvss_find('')) = 0, (SELECT count(*) FROM cvss_find(NULL)) = 0,
    (SELECT count(*) FROM cvss_find(x'')) = 0, (SELECT count(*) FROM cvss_find(9.8)) = 0,
    (SELECT count(*) FROM cvss_find) = 0, (SELECT count(*) FROM cvss_find(v2, NULL)) = 0,
    (SELECT count(*) FROM cvss_find WHERE allow_incomplete = 1) = 0 FROM known;
SELECT 'offsets in what is no text', group_concat(match_offset || text) = '3' || v2 || ',31' || v2 FROM known,
    cvss_find(CAST(x'FF' || CAST(char(0) || v2 || char(0, 10) || v2 AS BLOB) AS TEXT));
SELECT 'arguments of another table', count(*) = 2, sum(error IS NULL) = 1
    FROM cvss_find(v3, flag) AS found, (SELECT 'CVSS:3.1/AV:N' AS v3) AS one, (SELECT 0 AS flag UNION ALL SELECT 1) AS flags;
SELECT 'a part is searched once', count(*) = 1, min(vector) = v3 FROM known,
    cvss_find('https://example.org/?v3=' || v3 || '%20v2:' || v2)
    GROUP BY v3;
SELECT 'several texts, short and long', group_concat(length(coalesce(vector, error))) = '26,3079,26,54' FROM known,
    (SELECT 1 AS number, v2 AS note FROM known UNION ALL SELECT 2, 'CVSS:3.1/' || replace(hex(zeroblob(1520)), '00', 'AV')
    UNION ALL SELECT 3, v2 FROM known UNION ALL SELECT 4, 'CVSS:3.1/AV:N/A:H') AS texts, cvss_find(note);
SELECT 'a long text', count(*) = 20000, count(vector) = 20000, max(match_offset) = 1 + 19999 * (length(v2) + 2)
    FROM known, cvss_find(replace(hex(zeroblob(10000)), '0', v2 || ', '));
SELECT 'rows that are not all asked for', text = v2 FROM known, cvss_find(v2 || ' ' || v2) LIMIT 1;
CREATE VIEW found AS SELECT text FROM notes, cvss_find(note);

CREATE TABLE kept (
    vector TEXT CHECK (cvss_is_valid(vector)),
    score REAL AS (cvss_score(vector)) STORED,
    severity TEXT AS (cvss_severity(vector)) VIRTUAL
) STRICT;
CREATE INDEX kept_score ON kept (cvss_score(vector));
CREATE INDEX kept_high ON kept (vector) WHERE cvss_severity(vector) = 'high';
CREATE VIEW parsed AS SELECT cvss_canonical(vector) AS vector, cvss_error(vector) AS error FROM kept;
INSERT INTO kept SELECT v2 FROM known UNION ALL SELECT v3 FROM known UNION ALL SELECT v4 FROM known;
INSERT OR IGNORE INTO kept SELECT rejected FROM known;
PRAGMA trusted_schema = OFF;
SELECT 'a constraint and columns', group_concat(score || ' ' || severity) = '7.8 high,9.8 critical,6.9 medium'
    FROM kept;
SELECT 'a view', count(vector) = 3, count(error) = 0 FROM parsed;
SELECT 'a view of matches', count(*) = 3 FROM found;
SELECT 'an index', count(*) = 1 FROM kept INDEXED BY kept_score WHERE cvss_score(vector) > 9.0;
SELECT 'a partial index', count(*) = 1 FROM kept INDEXED BY kept_high WHERE cvss_severity(vector) = 'high';
CREATE INDEX kept_ranked ON kept (cvss_score(vector) DESC, vector);
INSERT INTO kept VALUES (NULL);
SELECT 'rejected last', group_concat(coalesce(score, '-')) = '9.8,7.8,6.9,-'
    FROM (SELECT score FROM kept ORDER BY cvss_score(vector) DESC NULLS LAST, vector);
PRAGMA integrity_check;
