\set ON_ERROR_STOP on
CREATE EXTENSION uca;
SELECT uca_fix() IS NOT NULL AS fixed \gset
CREATE TABLE w (n serial PRIMARY KEY, t text);
\copy w (t) FROM '@WORK@/lines.csv' WITH (FORMAT csv)
CREATE INDEX by_key ON w (uca_key(t));
CREATE INDEX by_sort_key ON w (uca_sort_key(t));
CREATE INDEX by_text ON w (t uca_ops);
ANALYZE w;
\pset tuples_only on
\pset format unaligned
SET enable_seqscan = off;
SET enable_sort = off;
SET enable_bitmapscan = off;
SELECT count(*) FROM w;
EXPLAIN (COSTS OFF) SELECT t FROM w ORDER BY uca_key(t);
EXPLAIN (COSTS OFF) SELECT t FROM w ORDER BY uca_sort_key(t);
EXPLAIN (COSTS OFF) SELECT t FROM w ORDER BY t USING <~;
EXPLAIN (COSTS OFF) SELECT t FROM w WHERE uca_key(t) BETWEEN uca_key('l') AND uca_key('m');
EXPLAIN (COSTS OFF) SELECT t FROM w WHERE t >=~ 'l' AND t <=~ 'm';
EXPLAIN (COSTS OFF) SELECT t FROM w WHERE uca_key(t) >= uca_prefix_lower('lo') AND uca_key(t) < uca_prefix_upper('lo');
EXPLAIN (COSTS OFF) SELECT t FROM w WHERE uca_sort_key(t) BETWEEN uca_sort_key('l') AND uca_sort_key('m');
SELECT (SELECT count(*) FROM w WHERE uca_key(t) BETWEEN uca_key('l') AND uca_key('m')) = (SELECT count(*) FROM w WHERE t >=~ 'l' AND t <=~ 'm');
SELECT (SELECT array_agg(n ORDER BY n) FROM w WHERE uca_key(t) >= uca_prefix_lower('a') AND uca_key(t) < uca_prefix_upper('a'))
    IS NOT DISTINCT FROM (SELECT array_agg(n ORDER BY n) FROM w WHERE uca_begins(t, 'a'));
SELECT uca_cmp('a', 'b'), uca_cmp('b', 'a'), uca_cmp(E'a\u0301', E'\u00e1'), uca_key(NULL) IS NULL;
SELECT uca_key('lomo'), uca_sort_key('lomo'), uca_sort_key(NULL) IS NULL;
SELECT length(uca_prefix_upper('')), length(uca_prefix_lower('')), (SELECT count(*) FROM w WHERE uca_key(t) >= uca_prefix_lower('') AND uca_key(t) < uca_prefix_upper(''));
SELECT string_agg(b.t, ' ' ORDER BY uca_key(b.t)) FROM (VALUES ('lp'), ('Lómo'), ('l'), ('lo'), ('ln')) AS b (t)
    WHERE uca_key(b.t) >= uca_prefix_lower('lo') AND uca_key(b.t) < uca_prefix_upper('lo');
SELECT encode(uca_fix(), 'hex');
RESET enable_sort;
\copy (SELECT t FROM w ORDER BY uca_key(t), n) TO '@WORK@/by_key.csv' WITH (FORMAT csv, FORCE_QUOTE *)
\copy (SELECT t FROM w ORDER BY uca_sort_key(t), n) TO '@WORK@/by_sort_key.csv' WITH (FORMAT csv, FORCE_QUOTE *)
\copy (SELECT t FROM (SELECT t, n FROM w) AS s ORDER BY t USING <~, n) TO '@WORK@/by_text.csv' WITH (FORMAT csv, FORCE_QUOTE *)
\set ON_ERROR_STOP off
\set VERBOSITY terse
SELECT uca_key('x' || repeat(U&'\0301', 61));
SELECT uca_sort_key('x' || repeat(U&'\0301', 61));
SET uca.strength = 'primary';
SELECT uca_key('a');
