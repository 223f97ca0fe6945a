-- 17 TooManyChanges: here a statement may take 5, one for itself and one for each row change, also of its triggers and their rows.
CREATE TABLE t (a INT);
CREATE TABLE log (a INT);
INSERT INTO t VALUES (1), (2), (3), (4);
INSERT INTO t VALUES (5), (6), (7), (8), (9);
UPDATE t SET a = a;
INSERT INTO t VALUES (5);
UPDATE t SET a = a;
DELETE FROM t;
DELETE FROM t WHERE a < 5;
SELECT * FROM t;
COMMIT;

-- one and a row, and in the trigger one and a row; then one and two rows, one and a row, and there is nothing left
CREATE TRIGGER r AFTER INSERT ON t REFERENCING NEW AS n FOR EACH ROW INSERT INTO log VALUES (n.a);
INSERT INTO t VALUES (6);
INSERT INTO t VALUES (7), (8);
SELECT COUNT(*) FROM t;
ROLLBACK;
