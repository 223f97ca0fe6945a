-- UPDATE and DELETE: all rows are found first, and every value is taken from the row as it was.
CREATE TABLE t (a INT, b INT DEFAULT 9);
INSERT INTO t VALUES (1, 10), (2, 20), (3, NULL);
UPDATE t SET a = b, b = a;
SELECT * FROM t;
UPDATE t SET b = DEFAULT, a = a + b WHERE t.b < 3;
UPDATE t SET a = 0 WHERE a IS NULL;
UPDATE t SET a = a + 1 WHERE a = 100;
SELECT * FROM t;

-- EXISTS over the same table under another name
DELETE FROM t WHERE EXISTS (SELECT * FROM t AS other WHERE other.a > t.a AND other.b = t.b);
SELECT * FROM t;
DELETE FROM t WHERE a > 5 AND b = NULL;
DELETE FROM t;
DELETE FROM t;
