-- psql -v module=FILE.so -f hashers.sql: hashers_X(bytea) for each name, hashers_X_write(bigint, bytea) for those that go on from a number,
-- and for those of them where cuts do not show the aggregate hashers_X_all(bytea), which hashes the values joined in their order. The
-- module says which hashes there are.
\set ON_ERROR_STOP 1
SET hashers.module = :'module';
CREATE FUNCTION hashers_names(OUT name text, OUT of_nothing bigint, OUT goes_on boolean, OUT cuts boolean) RETURNS SETOF record
    AS :'module', 'sql_names' LANGUAGE C IMMUTABLE PARALLEL SAFE;
SELECT format('CREATE FUNCTION hashers_%1$s(bytea) RETURNS bigint AS %2$L, %3$L LANGUAGE C IMMUTABLE STRICT PARALLEL SAFE', name,
              current_setting('hashers.module'), 'sql_hashers_' || name)
FROM hashers_names() \gexec
SELECT format('CREATE FUNCTION hashers_%1$s_write(bigint, bytea) RETURNS bigint AS %2$L, %3$L LANGUAGE C IMMUTABLE STRICT PARALLEL SAFE',
              name, current_setting('hashers.module'), 'sql_hashers_' || name || '_write')
FROM hashers_names() WHERE goes_on \gexec
-- an aggregate begins at the hash of no bytes
SELECT format('CREATE AGGREGATE hashers_%1$s_all(bytea) (SFUNC = hashers_%1$s_write, STYPE = bigint, INITCOND = %2$L)', name, of_nothing)
FROM hashers_names() WHERE goes_on AND NOT cuts \gexec
