-- All functions and types of the extension, with all that a script says of them.
SELECT member.oid::regprocedure, pg_get_function_arguments(member.oid), pg_get_function_result(member.oid), prosrc, probin,
    provolatile, proisstrict, proparallel, procost, prorows, proretset, prosecdef, obj_description(member.oid, 'pg_proc')
FROM pg_depend JOIN pg_proc AS member ON classid = 'pg_proc'::regclass AND objid = member.oid
WHERE refclassid = 'pg_extension'::regclass AND deptype = 'e'
    AND refobjid = (SELECT oid FROM pg_extension WHERE extname = 'cvss')
ORDER BY member.oid::regprocedure::text;
SELECT member.oid::regtype, typtype, format_type(typbasetype, typtypmod), typnotnull, obj_description(member.oid, 'pg_type'),
    (SELECT string_agg(pg_get_constraintdef(oid), ' ') FROM pg_constraint WHERE contypid = member.oid)
FROM pg_depend JOIN pg_type AS member ON classid = 'pg_type'::regclass AND objid = member.oid
WHERE refclassid = 'pg_extension'::regclass AND deptype = 'e'
    AND refobjid = (SELECT oid FROM pg_extension WHERE extname = 'cvss')
ORDER BY member.oid::regtype::text;
