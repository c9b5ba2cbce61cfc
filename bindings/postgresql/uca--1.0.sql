\echo Use "CREATE EXTENSION uca" to load this file. \quit

-- The packed key of a text, for indexes, under the table and the settings that uca.table_file, uca.rules_file, uca.strength and
-- uca.variable give.
CREATE FUNCTION uca_key(text) RETURNS bytea
    AS 'MODULE_PATHNAME', 'uca_pg_packed_key' LANGUAGE C IMMUTABLE STRICT PARALLEL SAFE;

-- The sort key of the standard: longer, and in the same order as the packed keys. The two kinds cannot be compared.
CREATE FUNCTION uca_sort_key(text) RETURNS bytea
    AS 'MODULE_PATHNAME', 'uca_pg_sort_key' LANGUAGE C IMMUTABLE STRICT PARALLEL SAFE;

-- The ends of the range that holds the keys of all texts whose primary weights begin with those of a text: each such key is at or after
-- the lower end and before the upper one.
CREATE FUNCTION uca_prefix_lower(text) RETURNS bytea
    AS 'MODULE_PATHNAME', 'uca_pg_prefix_lower' LANGUAGE C IMMUTABLE STRICT PARALLEL SAFE;
CREATE FUNCTION uca_prefix_upper(text) RETURNS bytea
    AS 'MODULE_PATHNAME', 'uca_pg_prefix_upper' LANGUAGE C IMMUTABLE STRICT PARALLEL SAFE;

-- -1, 0 or 1 if the first text comes before, is equal to or comes after the second.
CREATE FUNCTION uca_cmp(text, text) RETURNS integer
    AS 'MODULE_PATHNAME', 'uca_pg_cmp' LANGUAGE C IMMUTABLE STRICT PARALLEL SAFE;

-- The digest of everything that keys depend on.
CREATE FUNCTION uca_fingerprint() RETURNS bytea
    AS 'MODULE_PATHNAME', 'uca_pg_fingerprint' LANGUAGE C STABLE PARALLEL SAFE;

-- While it has no row, no fingerprint is fixed. uca_fix() stores the current one, and each session compares it at its first use.
CREATE TABLE uca_fixed (fingerprint bytea NOT NULL);
SELECT pg_catalog.pg_extension_config_dump('uca_fixed', '');
GRANT SELECT ON uca_fixed TO PUBLIC;

CREATE FUNCTION uca_fix() RETURNS bytea LANGUAGE sql
    AS 'DELETE FROM uca_fixed; INSERT INTO uca_fixed SELECT uca_fingerprint() RETURNING fingerprint';

CREATE FUNCTION uca_lt(text, text) RETURNS boolean
    AS 'MODULE_PATHNAME', 'uca_pg_lt' LANGUAGE C IMMUTABLE STRICT PARALLEL SAFE;
CREATE FUNCTION uca_le(text, text) RETURNS boolean
    AS 'MODULE_PATHNAME', 'uca_pg_le' LANGUAGE C IMMUTABLE STRICT PARALLEL SAFE;
CREATE FUNCTION uca_eq(text, text) RETURNS boolean
    AS 'MODULE_PATHNAME', 'uca_pg_eq' LANGUAGE C IMMUTABLE STRICT PARALLEL SAFE;
CREATE FUNCTION uca_ge(text, text) RETURNS boolean
    AS 'MODULE_PATHNAME', 'uca_pg_ge' LANGUAGE C IMMUTABLE STRICT PARALLEL SAFE;
CREATE FUNCTION uca_gt(text, text) RETURNS boolean
    AS 'MODULE_PATHNAME', 'uca_pg_gt' LANGUAGE C IMMUTABLE STRICT PARALLEL SAFE;

CREATE OPERATOR <~ (LEFTARG = text, RIGHTARG = text, FUNCTION = uca_lt, COMMUTATOR = >~, NEGATOR = >=~, RESTRICT = scalarltsel, JOIN = scalarltjoinsel);
CREATE OPERATOR <=~ (LEFTARG = text, RIGHTARG = text, FUNCTION = uca_le, COMMUTATOR = >=~, NEGATOR = >~, RESTRICT = scalarlesel, JOIN = scalarlejoinsel);
CREATE OPERATOR =~~ (LEFTARG = text, RIGHTARG = text, FUNCTION = uca_eq, COMMUTATOR = =~~, RESTRICT = eqsel, JOIN = eqjoinsel);
CREATE OPERATOR >=~ (LEFTARG = text, RIGHTARG = text, FUNCTION = uca_ge, COMMUTATOR = <=~, NEGATOR = <~, RESTRICT = scalargesel, JOIN = scalargejoinsel);
CREATE OPERATOR >~ (LEFTARG = text, RIGHTARG = text, FUNCTION = uca_gt, COMMUTATOR = <~, NEGATOR = <=~, RESTRICT = scalargtsel, JOIN = scalargtjoinsel);

-- For indexes of texts themselves: CREATE INDEX .. (t uca_ops), and ORDER BY t USING <~
CREATE OPERATOR CLASS uca_ops FOR TYPE text USING btree AS
    OPERATOR 1 <~, OPERATOR 2 <=~, OPERATOR 3 =~~, OPERATOR 4 >=~, OPERATOR 5 >~,
    FUNCTION 1 uca_cmp(text, text);
