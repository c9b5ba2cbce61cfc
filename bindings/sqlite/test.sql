.bail on
SELECT uca_load('uca', '@TABLE@');
SELECT uca_load('es', '@TABLE@', '@RULES@', 'tertiary', 'shifted');
CREATE TABLE w (n INTEGER PRIMARY KEY, t TEXT);
CREATE TABLE lines (t TEXT);
.mode ascii
.separator "\037" "\n"
.import @LINES@ lines
INSERT INTO w (t) SELECT * FROM lines;
.mode list
CREATE INDEX by_collation ON w (t COLLATE uca);
CREATE INDEX by_key ON w (uca_key(t));
CREATE INDEX by_sort_key ON w (uca_sort_key(t));
ANALYZE;
.output @WORK@/by_collation
SELECT t FROM w ORDER BY t COLLATE uca, n;
.output @WORK@/by_key
SELECT t FROM w ORDER BY uca_key(t), n;
.output @WORK@/by_sort_key
SELECT t FROM w ORDER BY uca_sort_key(t), n;
.output @WORK@/answers
SELECT count(*) FROM w;
EXPLAIN QUERY PLAN SELECT t FROM w ORDER BY t COLLATE uca, n;
EXPLAIN QUERY PLAN SELECT t FROM w ORDER BY uca_key(t), n;
EXPLAIN QUERY PLAN SELECT t FROM w WHERE t COLLATE uca BETWEEN 'l' AND 'm';
EXPLAIN QUERY PLAN SELECT t FROM w WHERE uca_key(t) BETWEEN uca_key('l') AND uca_key('m');
SELECT (SELECT count(*) FROM w WHERE t COLLATE uca BETWEEN 'l' AND 'm') = (SELECT count(*) FROM w WHERE uca_key(t) BETWEEN uca_key('l') AND uca_key('m'));
SELECT group_concat(column1, ' ') FROM (SELECT column1 FROM (VALUES ('mano'), ('lomo'), ('llano'), ('luna')) ORDER BY column1 COLLATE es);
EXPLAIN QUERY PLAN SELECT t FROM w WHERE uca_key(t) >= uca_prefix_lower('lo') AND uca_key(t) < uca_prefix_upper('lo');
SELECT group_concat(column1, ' ') FROM (SELECT column1 FROM (VALUES ('lp'), ('Lómo'), ('l'), ('lo'), ('ln'))
    WHERE uca_key(column1) >= uca_prefix_lower('lo') AND uca_key(column1) < uca_prefix_upper('lo') ORDER BY uca_key(column1));
SELECT hex(uca_prefix_lower('')), length(uca_prefix_upper('')), uca_prefix_lower(NULL) IS NULL, length(uca_prefix_upper(printf('%.*c', 1000, 'a'))),
    uca_prefix_lower('ch', 'es') = uca_prefix_lower('ch');
EXPLAIN QUERY PLAN SELECT t FROM w ORDER BY uca_sort_key(t), n;
EXPLAIN QUERY PLAN SELECT t FROM w WHERE uca_sort_key(t) BETWEEN uca_sort_key('l') AND uca_sort_key('m');
SELECT (SELECT group_concat(n) FROM (SELECT n FROM w WHERE uca_key(t) >= uca_prefix_lower('a') AND uca_key(t) < uca_prefix_upper('a') ORDER BY n))
    IS (SELECT group_concat(n) FROM (SELECT n FROM w WHERE uca_begins(t, 'a') ORDER BY n));
SELECT uca_key(NULL) IS NULL, length(uca_key(printf('%.*c', 1000, 'a'))), hex(uca_key('a b', 'es')), hex(uca_sort_key('a b', 'es'));
SELECT lower(hex(uca_fingerprint('uca')));
PRAGMA integrity_check;
.bail off
SELECT uca_key(CAST(x'61ff' AS TEXT));
SELECT uca_sort_key(CAST(x'61ff' AS TEXT));
SELECT uca_key('a', 'none');
SELECT uca_load('uca', '@TABLE@');
SELECT uca_load('x', '/nowhere');
SELECT uca_load('x', '@RULES@');
SELECT uca_load('x', '@TABLE@', NULL, 'sixth');
SELECT hex(uca_sort_key(NULL)), length(uca_sort_key(printf('%.*c', 1000, 'a')));
