-- The condition of an UPDATE comes at all rows before a value, and a row where it is false has none.
CREATE TABLE t (a INT);
INSERT INTO t VALUES (5), (9223372036854775807);
UPDATE t SET a = a * 9223372036854775807 WHERE a + 1 > 0;
UPDATE t SET a = a * 9223372036854775807 WHERE a > 5;
