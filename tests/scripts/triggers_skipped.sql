-- Triggers whose WHEN isn't true, for each row or once for the statement, and statements of bodies that change nothing.
CREATE TABLE t (a INT, b INT);
CREATE TABLE log (x INT);
CREATE TABLE s (a INT UNIQUE);

-- BEFORE: for each row in its turn, first one trigger, then the next. The second sees what the first has set.
CREATE TRIGGER big BEFORE INSERT ON t REFERENCING NEW AS n FOR EACH ROW WHEN (n.a > 5) SET n.b = n.a;
CREATE TRIGGER small BEFORE INSERT ON t REFERENCING NEW AS n FOR EACH ROW WHEN (n.b < 5) SET n.a = 0;
INSERT INTO t VALUES (1, 9), (7, 0), (NULL, NULL);
COMMIT;

-- Once for the statement, even if there is no row; no rows are told. One on another event, table or column isn't asked.
CREATE TRIGGER shut BEFORE DELETE ON t WHEN (EXISTS (SELECT * FROM log)) SIGNAL 'shut';
CREATE TRIGGER open AFTER DELETE ON t REFERENCING OLD TABLE AS olds WHEN (NULL > 0) SIGNAL 'open';
CREATE TRIGGER other AFTER UPDATE ON t WHEN (1 > 2) SIGNAL 'other';
CREATE TRIGGER far AFTER DELETE ON s WHEN (1 > 2) SIGNAL 'far';
DELETE FROM t WHERE a = 77;
DELETE FROM t WHERE a = 7;
COMMIT;
CREATE TRIGGER named AFTER UPDATE OF b ON t WHEN (1 > 2) SIGNAL 'named';
UPDATE t SET a = 2 WHERE a = 1;
UPDATE t SET b = 8 WHERE a = 2;
COMMIT;

-- AFTER: each WHEN sees what the triggers before it have done.
CREATE TRIGGER once AFTER INSERT ON s REFERENCING NEW AS n FOR EACH ROW WHEN (NOT EXISTS (SELECT * FROM log))
    BEGIN ATOMIC UPDATE log SET x = 0; INSERT INTO log VALUES (n.a); DELETE FROM log WHERE x = 77; END;
INSERT INTO s VALUES (1), (NULL);
COMMIT;

-- A statement that changed nothing before the refusal; and one that has a trigger which is skipped, in the body of another.
CREATE TRIGGER again AFTER DELETE ON s BEGIN ATOMIC DELETE FROM log WHERE x = 77; SIGNAL 'again'; END;
DELETE FROM s;
DROP TRIGGER again;
CREATE TRIGGER onward AFTER DELETE ON log UPDATE t SET b = 0 WHERE a = 77;
DELETE FROM log;
COMMIT;
