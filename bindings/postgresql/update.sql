-- Updates a database at version 1.1 that has data to 2.0: each line has what is tried, and then t if it is as it must be.
CREATE TABLE old (
    id text,
    vector cvss_vector CHECK (cvss_is_valid(vector)),
    score numeric(3,1) GENERATED ALWAYS AS (cvss_score(vector)) STORED
);
CREATE INDEX old_score ON old (cvss_score(vector));
CREATE VIEW old_ranked AS SELECT id, cvss_score(vector) AS score, cvss_severity(vector) AS severity FROM old;
INSERT INTO old SELECT 'v2', v2 FROM known UNION ALL SELECT 'v3', v3 FROM known UNION ALL SELECT 'v4', v4 FROM known
    UNION ALL SELECT 'unproven', v3 || '/E:U' FROM known UNION ALL SELECT 'cut', replace(v3, '/A:H', '') FROM known;
CREATE VIEW old_errors AS SELECT id, cvss_reason(vector) AS reason FROM old;
CREATE INDEX old_plain ON old (cvss_without_undefined(vector));

-- What is over a function that goes stops the update, and nothing has changed.
\set ON_ERROR_STOP off
DROP VIEW found_by_1_0;
ALTER EXTENSION cvss UPDATE;
\echo :LAST_ERROR_SQLSTATE :LAST_ERROR_MESSAGE
DROP VIEW old_errors;
ALTER EXTENSION cvss UPDATE;
\echo :LAST_ERROR_SQLSTATE :LAST_ERROR_MESSAGE
\set ON_ERROR_STOP on
SELECT 'not yet updated', extversion = '1.1', cvss_score(v3 || '/E:U') = 9.8, cvss_is_valid('CVSS:3.1/AV:N'),
    cvss_reason(rejected) IS NOT NULL FROM pg_extension, (SELECT v3, refused AS rejected FROM known) AS known
    WHERE extname = 'cvss';

-- What docs/SQL.md says to do before the update, and the update.
SELECT 'what is over the functions', string_agg(object, ', ' ORDER BY object)
    = 'constraint cvss_vector_check, constraint old_vector_check on table old, default value for column score of table kept, '
    || 'default value for column score of table old, index many_ranked, index many_score, index old_plain, index old_score, '
    || 'rule _RETURN on view old_ranked'
FROM (SELECT DISTINCT pg_describe_object(classid, objid, objsubid) COLLATE "C" AS object FROM pg_depend
    WHERE refclassid = 'pg_proc'::regclass AND deptype = 'n' AND refobjid IN (SELECT objid FROM pg_depend
        WHERE refclassid = 'pg_extension'::regclass AND refobjid = (SELECT oid FROM pg_extension WHERE extname = 'cvss'))
) AS dependent;
SELECT 'incomplete vectors', string_agg(id, ',') = 'cut' FROM old WHERE NOT cvss_is_complete(vector);
DROP INDEX old_plain;
ALTER EXTENSION cvss UPDATE;
SELECT 'updated', extversion = '2.0' FROM pg_extension WHERE extname = 'cvss';

-- The rows are there, and what is computed is computed anew.
SELECT 'rows', count(*) = 5, count(vector) = 5 FROM old;
SELECT 'a view over a function that stays', string_agg(concat_ws(' ', id, score, severity), ',' ORDER BY id)
    = 'cut,unproven 9.0 critical,v2 7.8 high,v3 9.8 critical,v4 6.9 medium' FROM old_ranked;
SELECT 'incomplete vectors', cvss_score(vector) IS NULL, cvss_score(vector, true) = 9.1,
    cvss_error(vector) LIKE 'missing mandatory CVSSv3 A %' FROM old WHERE id = 'cut';
\set ON_ERROR_STOP off
INSERT INTO old VALUES ('new', 'CVSS:3.1/AV:N');
\echo :LAST_ERROR_SQLSTATE :LAST_ERROR_MESSAGE
UPDATE old SET vector = vector;
\echo :LAST_ERROR_SQLSTATE :LAST_ERROR_MESSAGE
\set ON_ERROR_STOP on
SELECT 'stored as before', string_agg(concat_ws(' ', id, score), ',' ORDER BY id) = 'cut 9.1,unproven 9.8,v2 7.8,v3 9.8,v4 6.9' FROM old;

-- What docs/SQL.md says to do after it.
UPDATE old SET vector = 'CVSS:3.1/AV:N/AC:L/PR:N/UI:N/S:U/C:H/I:H/A:N' WHERE id = 'cut';
UPDATE old SET vector = vector;
REINDEX INDEX old_score;
SELECT 'stored anew', string_agg(concat_ws(' ', id, score), ',' ORDER BY id) = 'cut 9.1,unproven 9.0,v2 7.8,v3 9.8,v4 6.9' FROM old;
SET enable_seqscan = off;
SELECT 'the index', plan_of('SELECT * FROM old WHERE cvss_score(vector) = 9.0') LIKE '%old_score%',
    (SELECT string_agg(id, ',') FROM old WHERE cvss_score(vector) = 9.0) = 'unproven';
RESET enable_seqscan;
SELECT 'the domain', pg_get_constraintdef(oid) = 'CHECK (cvss_check(VALUE))', convalidated FROM pg_constraint
    WHERE contypid = 'cvss_vector'::regtype;
DROP VIEW old_ranked;
DROP TABLE old, known, kept, many;
DROP FUNCTION plan_of(text);
