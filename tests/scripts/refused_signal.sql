-- 15 Signal: a trigger ran SIGNAL. The trigger and the text are told, and the whole statement is undone.
CREATE TABLE t (a INT);
CREATE TRIGGER none BEFORE DELETE ON t SIGNAL 'no deletion';
CREATE TRIGGER small BEFORE INSERT ON t REFERENCING NEW AS n FOR EACH ROW WHEN (n.a < 0) SIGNAL 'it''s negative';
CREATE TRIGGER big AFTER INSERT ON t REFERENCING NEW AS n FOR EACH ROW WHEN (n.a > 9) BEGIN ATOMIC UPDATE t SET a = 9 WHERE a > 9; SIGNAL 'too big'; SIGNAL 'never'; END;
INSERT INTO t VALUES (1), (2);
INSERT INTO t VALUES (3), (-1);
INSERT INTO t VALUES (10);

-- unknown isn't true
INSERT INTO t VALUES (NULL);

-- a statement trigger runs also where there is no row
DELETE FROM t WHERE a = 77;
SELECT * FROM t;
ROLLBACK;
DROP TRIGGER none;
INSERT INTO t VALUES (1);
DELETE FROM t;
COMMIT;
