-- Refused statements leave the database as it was, and the last transaction is rolled back.
CREATE TABLE t (a INT CHECK (a > 0));
INSERT INTO t VALUES (0);
INSERT INTO t VALUES (1);
COMMIT;
DROP TRIGGER absent;
INSERT INTO t VALUES (2);
