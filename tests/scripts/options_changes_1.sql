-- The least budget: a statement may take one for itself, and change no row.
CREATE TABLE t (a INT);
UPDATE t SET a = 1;
INSERT INTO t VALUES (1);
DELETE FROM t;
COMMIT;
