-- The greatest depth: the statement of the script is at depth 1, and the one that inserts 1 is the last.
CREATE TABLE t (a INT);
CREATE TRIGGER down AFTER INSERT ON t REFERENCING NEW AS n FOR EACH ROW WHEN (n.a > 1) INSERT INTO t VALUES (n.a - 1);
INSERT INTO t VALUES (64);
SELECT COUNT(*) FROM t;
INSERT INTO t VALUES (65);
SELECT COUNT(*) FROM t;
ROLLBACK;
