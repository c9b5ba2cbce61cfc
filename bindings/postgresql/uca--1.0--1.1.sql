\echo Use "CREATE EXTENSION uca" or "ALTER EXTENSION uca UPDATE" to load this file. \quit

-- Named collations. Each is a text search dictionary of this template: the server dumps dictionaries before tables, and records which
-- indexes name one.
CREATE FUNCTION uca_init(internal) RETURNS internal
    AS 'MODULE_PATHNAME', 'uca_pg_init' LANGUAGE C STRICT;
CREATE FUNCTION uca_lexize(internal, internal, internal, internal) RETURNS internal
    AS 'MODULE_PATHNAME', 'uca_pg_lexize' LANGUAGE C STRICT;
CREATE TEXT SEARCH TEMPLATE uca (INIT = uca_init, LEXIZE = uca_lexize);

-- The functions of 1.0 use the collation named uca; these use the one that their last argument names. A collation makes keys only while
-- its files have the fixed fingerprint, so all are immutable. uca_prefix_lower and uca_prefix_upper give the ends of ranges of packed keys,
-- which uca_key returns, and not of those of uca_sort_key.
CREATE FUNCTION uca_key(text, regdictionary) RETURNS bytea
    AS 'MODULE_PATHNAME', 'uca_pg_packed_key' LANGUAGE C IMMUTABLE STRICT PARALLEL SAFE;
CREATE FUNCTION uca_sort_key(text, regdictionary) RETURNS bytea
    AS 'MODULE_PATHNAME', 'uca_pg_sort_key' LANGUAGE C IMMUTABLE STRICT PARALLEL SAFE;
CREATE FUNCTION uca_prefix_lower(text, regdictionary) RETURNS bytea
    AS 'MODULE_PATHNAME', 'uca_pg_prefix_lower' LANGUAGE C IMMUTABLE STRICT PARALLEL SAFE;
CREATE FUNCTION uca_prefix_upper(text, regdictionary) RETURNS bytea
    AS 'MODULE_PATHNAME', 'uca_pg_prefix_upper' LANGUAGE C IMMUTABLE STRICT PARALLEL SAFE;
CREATE FUNCTION uca_cmp(text, text, regdictionary) RETURNS integer
    AS 'MODULE_PATHNAME', 'uca_pg_cmp' LANGUAGE C IMMUTABLE STRICT PARALLEL SAFE;
CREATE FUNCTION uca_fingerprint(regdictionary) RETURNS bytea
    AS 'MODULE_PATHNAME', 'uca_pg_fingerprint' LANGUAGE C IMMUTABLE STRICT PARALLEL SAFE;
CREATE OR REPLACE FUNCTION uca_fingerprint() RETURNS bytea
    AS 'MODULE_PATHNAME', 'uca_pg_fingerprint' LANGUAGE C IMMUTABLE PARALLEL SAFE;

-- Whether the primary weights of the first text begin with those of the second: whether its key is in the range from uca_prefix_lower to
-- uca_prefix_upper of the second.
CREATE FUNCTION uca_begins(text, text) RETURNS boolean
    AS 'MODULE_PATHNAME', 'uca_pg_begins' LANGUAGE C IMMUTABLE STRICT PARALLEL SAFE;
CREATE FUNCTION uca_begins(text, text, regdictionary) RETURNS boolean
    AS 'MODULE_PATHNAME', 'uca_pg_begins' LANGUAGE C IMMUTABLE STRICT PARALLEL SAFE;

-- Sorts of texts compare the first eight bytes of their keys, and joins on =~~ can hash and merge.
CREATE FUNCTION uca_sort_support(internal) RETURNS void
    AS 'MODULE_PATHNAME', 'uca_pg_sort_support' LANGUAGE C IMMUTABLE STRICT PARALLEL SAFE;
ALTER OPERATOR FAMILY uca_ops USING btree ADD FUNCTION 2 (text, text) uca_sort_support(internal);
CREATE FUNCTION uca_hash(text) RETURNS integer
    AS 'MODULE_PATHNAME', 'uca_pg_hash' LANGUAGE C IMMUTABLE STRICT PARALLEL SAFE;
CREATE FUNCTION uca_hash_extended(text, bigint) RETURNS bigint
    AS 'MODULE_PATHNAME', 'uca_pg_hash_extended' LANGUAGE C IMMUTABLE STRICT PARALLEL SAFE;
CREATE OPERATOR CLASS uca_hash_ops FOR TYPE text USING hash AS
    OPERATOR 1 =~~,
    FUNCTION 1 uca_hash(text), FUNCTION 2 uca_hash_extended(text, bigint);
-- ALTER OPERATOR cannot do this before PostgreSQL 17, and indexes may depend on the operator, so it cannot be dropped.
UPDATE pg_catalog.pg_operator SET oprcanhash = true, oprcanmerge = true WHERE oid = '@extschema@.=~~(pg_catalog.text, pg_catalog.text)'::pg_catalog.regoperator;

CREATE FUNCTION uca_create(name text, table_file text, rules_file text DEFAULT '', strength text DEFAULT 'tertiary', variable text DEFAULT 'non-ignorable')
    RETURNS regdictionary LANGUAGE plpgsql AS $$
BEGIN
    IF octet_length(name) > 63 THEN
        RAISE EXCEPTION 'uca: the name "%" has more than 63 bytes', name USING ERRCODE = 'name_too_long';
    END IF;
    IF EXISTS (SELECT FROM pg_catalog.pg_ts_dict t WHERE t.dictname = name AND t.dictnamespace = '@extschema@'::regnamespace) THEN
        RAISE EXCEPTION 'uca: there is a text search dictionary "%" already', name USING ERRCODE = 'duplicate_object';
    END IF;
    EXECUTE format('CREATE TEXT SEARCH DICTIONARY @extschema@.%I (TEMPLATE = @extschema@.uca, table_file = %L, rules_file = %L, strength = %L, variable = %L)',
        name, coalesce(table_file, ''), coalesce(rules_file, ''), strength, variable);
    RETURN format('@extschema@.%I', name)::regdictionary;
END $$;

-- The fixed fingerprint, and the one that the files have now, in hexadecimal digits.
CREATE FUNCTION uca_fixed(regdictionary) RETURNS text
    AS 'MODULE_PATHNAME', 'uca_pg_fixed' LANGUAGE C STABLE STRICT;
CREATE FUNCTION uca_found(regdictionary) RETURNS text
    AS 'MODULE_PATHNAME', 'uca_pg_found' LANGUAGE C VOLATILE STRICT;

-- What depends on a collation: on its name or, if it is the default one, on the functions and operators that take no name.
CREATE FUNCTION uca_dependents(dictionary regdictionary) RETURNS TABLE (classid oid, objid oid, description text) LANGUAGE sql STABLE AS $$
    SELECT DISTINCT d.classid, d.objid, pg_catalog.pg_describe_object(d.classid, d.objid, 0)
    FROM pg_catalog.pg_depend d
    WHERE d.classid IN ('pg_catalog.pg_class'::pg_catalog.regclass, 'pg_catalog.pg_attrdef'::pg_catalog.regclass,
                        'pg_catalog.pg_constraint'::pg_catalog.regclass, 'pg_catalog.pg_rewrite'::pg_catalog.regclass)
      AND (d.refclassid = 'pg_catalog.pg_ts_dict'::pg_catalog.regclass AND d.refobjid = dictionary
           OR dictionary = (SELECT t.oid FROM pg_catalog.pg_ts_dict t WHERE t.dictname = 'uca' AND t.dictnamespace = '@extschema@'::pg_catalog.regnamespace)
              AND (d.refclassid, d.refobjid) IN (
                  SELECT m.classid, m.objid FROM pg_catalog.pg_depend m JOIN pg_catalog.pg_extension e ON m.refobjid = e.oid
                  WHERE m.refclassid = 'pg_catalog.pg_extension'::pg_catalog.regclass AND m.deptype = 'e' AND e.extname = 'uca'
                    AND NOT EXISTS (SELECT FROM pg_catalog.pg_proc p WHERE m.classid = 'pg_catalog.pg_proc'::pg_catalog.regclass
                                    AND p.oid = m.objid AND 'pg_catalog.regdictionary'::pg_catalog.regtype = ANY (p.proargtypes))))
$$;

-- Fixes the fingerprints that the files have now, and then rebuilds the indexes and generated columns that depend on these collations.
CREATE FUNCTION uca_fix_and_rebuild(dictionaries regdictionary[]) RETURNS void LANGUAGE plpgsql AS $$
DECLARE
    dictionary regdictionary;
    stale record;
BEGIN
    FOREACH dictionary IN ARRAY dictionaries LOOP
        EXECUTE format('ALTER TEXT SEARCH DICTIONARY %s (fingerprint = %L)', dictionary, @extschema@.uca_found(dictionary));
    END LOOP;
    FOR stale IN SELECT DISTINCT c.oid IS NULL, d.description, coalesce(c.oid, a.attrelid)::regclass AS relation, c.relkind AS index_kind, a.attname AS base
            FROM unnest(dictionaries) n CROSS JOIN @extschema@.uca_dependents(n) d
            LEFT JOIN pg_catalog.pg_class c ON d.classid = 'pg_catalog.pg_class'::regclass AND c.oid = d.objid AND c.relkind IN ('i', 'I')
            LEFT JOIN (pg_catalog.pg_attrdef f JOIN pg_catalog.pg_attribute g ON g.attrelid = f.adrelid AND g.attnum = f.adnum AND g.attgenerated = 's'
                       JOIN pg_catalog.pg_class r ON r.oid = f.adrelid AND r.relkind = 'r'
                       JOIN LATERAL (SELECT min(b.refobjsubid) AS number FROM pg_catalog.pg_depend b
                           WHERE b.classid = 'pg_catalog.pg_attrdef'::regclass AND b.objid = f.oid AND b.refclassid = 'pg_catalog.pg_class'::regclass
                             AND b.refobjid = f.adrelid AND b.refobjsubid NOT IN (0, f.adnum)) b ON true
                       JOIN pg_catalog.pg_attribute a ON a.attrelid = f.adrelid AND a.attnum = b.number)
                ON d.classid = 'pg_catalog.pg_attrdef'::regclass AND f.oid = d.objid
            ORDER BY 1, 2 LOOP
        CONTINUE WHEN stale.index_kind = 'I'; -- a partitioned index: its partitions have rows of their own
        IF stale.index_kind = 'i' THEN
            EXECUTE format('REINDEX INDEX %s', stale.relation);
        ELSIF stale.base IS NOT NULL THEN
            EXECUTE format('UPDATE %s SET %I = %I', stale.relation, stale.base, stale.base); -- a column that the generated one is computed from
        ELSE
            RAISE WARNING 'uca: % depends on keys that have changed', stale.description;
            CONTINUE;
        END IF;
        RAISE NOTICE 'uca: % is rebuilt', stale.description;
    END LOOP;
END $$;

-- The default collation, made or altered by the settings uca.table_file, uca.rules_file, uca.strength and uca.variable if the first is set.
CREATE FUNCTION uca_by_settings() RETURNS regdictionary LANGUAGE plpgsql AS $$
DECLARE
    made regdictionary := (SELECT t.oid FROM pg_catalog.pg_ts_dict t WHERE t.dictname = 'uca' AND t.dictnamespace = '@extschema@'::regnamespace);
    table_file text := nullif(current_setting('uca.table_file', true), '');
    rules_file text := coalesce(current_setting('uca.rules_file', true), '');
    strength text := coalesce(current_setting('uca.strength', true), 'tertiary');
    variable text := coalesce(current_setting('uca.variable', true), 'non-ignorable');
BEGIN
    IF table_file IS NULL THEN
        IF made IS NULL THEN
            RAISE EXCEPTION 'uca: there is no collation "uca"' USING ERRCODE = 'undefined_object',
                HINT = 'SELECT uca_create(''uca'', table_file, rules_file) makes it; or set uca.table_file and SELECT uca_fix().';
        END IF;
        RETURN made;
    END IF;
    IF made IS NULL THEN
        RETURN @extschema@.uca_create('uca', table_file, rules_file, strength, variable);
    END IF;
    EXECUTE format('ALTER TEXT SEARCH DICTIONARY %s (table_file = %L, rules_file = %L, strength = %L, variable = %L)', made, table_file, rules_file, strength, variable);
    RETURN made;
END $$;

-- Fixes the fingerprints that the files of collations have now. If another was fixed and something depends on it, this needs `force`.
CREATE FUNCTION uca_fix_these(dictionaries regdictionary[], force boolean) RETURNS void LANGUAGE plpgsql AS $$
DECLARE
    changed regdictionary[];
    dependents text;
BEGIN
    changed := ARRAY(SELECT n FROM unnest(dictionaries) n WHERE @extschema@.uca_found(n) IS DISTINCT FROM @extschema@.uca_fixed(n));
    SELECT string_agg(DISTINCT d.description, ', ') INTO dependents FROM unnest(changed) n CROSS JOIN @extschema@.uca_dependents(n) d;
    IF dependents IS NOT NULL AND force IS NOT TRUE THEN
        RAISE EXCEPTION 'uca: the fingerprint of the collation % is not the one that was fixed', array_to_string(changed, ' and of ')
            USING ERRCODE = 'dependent_objects_still_exist', DETAIL = format('What depends on it: %s.', dependents),
                HINT = 'With force => true the present one is fixed, and indexes and generated columns are rebuilt.';
    END IF;
    PERFORM @extschema@.uca_fix_and_rebuild(changed);
END $$;

DROP FUNCTION uca_fix();
CREATE FUNCTION uca_fix(dictionary regdictionary DEFAULT NULL, force boolean DEFAULT false) RETURNS bytea LANGUAGE plpgsql AS $$
BEGIN
    IF dictionary IS NULL OR dictionary = (SELECT t.oid FROM pg_catalog.pg_ts_dict t WHERE t.dictname = 'uca' AND t.dictnamespace = '@extschema@'::regnamespace) THEN
        dictionary := @extschema@.uca_by_settings();
    END IF;
    PERFORM @extschema@.uca_fix_these(ARRAY[dictionary], force);
    RETURN decode(@extschema@.uca_fixed(dictionary), 'hex');
END $$;

-- Fixes all collations at once, for example after an update of a table that they share.
CREATE FUNCTION uca_fix_all(force boolean DEFAULT false) RETURNS void LANGUAGE sql AS $$
    SELECT @extschema@.uca_fix_these(ARRAY(SELECT d.oid::pg_catalog.regdictionary FROM pg_catalog.pg_ts_dict d JOIN pg_catalog.pg_ts_template t ON t.oid = d.dicttemplate
        WHERE t.tmplname = 'uca' AND t.tmplnamespace = '@extschema@'::pg_catalog.regnamespace), force)
$$;

-- Makes the default collation of 1.0 if indexes depend on it. It keeps the fingerprint that was fixed. The packed keys of 1.0 had another
-- form, so its fingerprints are other ones, and keys are refused until uca_fix(force => true) has rebuilt the indexes.
DO $$
DECLARE
    table_file text := nullif(current_setting('uca.table_file', true), '');
    options text := '';
BEGIN
    IF table_file IS NOT NULL AND EXISTS (SELECT FROM pg_catalog.pg_depend d JOIN pg_catalog.pg_depend m ON d.refclassid = m.classid AND d.refobjid = m.objid
            JOIN pg_catalog.pg_extension e ON m.refclassid = 'pg_catalog.pg_extension'::regclass AND m.refobjid = e.oid AND m.deptype = 'e'
            WHERE e.extname = 'uca' AND m.classid <> 'pg_catalog.pg_class'::regclass
              AND d.classid IN ('pg_catalog.pg_class'::regclass, 'pg_catalog.pg_attrdef'::regclass)) THEN
        SELECT format(', fingerprint = %L', encode(fingerprint, 'hex')) INTO options FROM @extschema@.uca_fixed;
        EXECUTE format('CREATE TEXT SEARCH DICTIONARY @extschema@.uca (TEMPLATE = @extschema@.uca, table_file = %L, rules_file = %L, strength = %L, variable = %L%s)',
            table_file, coalesce(current_setting('uca.rules_file', true), ''), coalesce(current_setting('uca.strength', true), 'tertiary'),
            coalesce(current_setting('uca.variable', true), 'non-ignorable'), options);
        ALTER EXTENSION uca DROP TEXT SEARCH DICTIONARY @extschema@.uca;
    END IF;
END $$;
ALTER EXTENSION uca DROP TABLE uca_fixed;
DROP TABLE uca_fixed;

-- A new collation, restored from a dump or not, gets the fingerprint that its files have here and now.
CREATE FUNCTION uca_fix_new() RETURNS event_trigger LANGUAGE plpgsql AS $$
DECLARE
    dictionary regdictionary;
BEGIN
    FOR dictionary IN SELECT c.objid FROM pg_catalog.pg_event_trigger_ddl_commands() c JOIN pg_catalog.pg_ts_dict d ON d.oid = c.objid
            JOIN pg_catalog.pg_ts_template t ON t.oid = d.dicttemplate
            WHERE c.classid = 'pg_catalog.pg_ts_dict'::regclass AND t.tmplname = 'uca' AND t.tmplnamespace = '@extschema@'::regnamespace LOOP
        PERFORM @extschema@.uca_fix_and_rebuild(ARRAY[dictionary]);
    END LOOP;
END $$;
CREATE EVENT TRIGGER uca_fix_new ON ddl_command_end WHEN TAG IN ('CREATE TEXT SEARCH DICTIONARY') EXECUTE FUNCTION uca_fix_new();
ALTER EVENT TRIGGER uca_fix_new ENABLE ALWAYS;
