-- Old and new rows and transition tables are fixed when triggers begin; other tables are seen as they are at that moment.
CREATE TABLE t (a INT);
CREATE TABLE v (a INT);
CREATE TABLE log (what VARCHAR(9), a INT);
CREATE TRIGGER first AFTER INSERT ON t REFERENCING NEW AS n FOR EACH ROW WHEN (n.a = 1) UPDATE t SET a = a + 10;
CREATE TRIGGER second AFTER INSERT ON t REFERENCING NEW AS n NEW TABLE AS news FOR EACH ROW BEGIN ATOMIC INSERT INTO log VALUES ('new', n.a); INSERT INTO log SELECT 'table', a FROM t WHERE a = n.a + 10; INSERT INTO log SELECT 'news', a FROM news WHERE news.a = n.a; END;
INSERT INTO t VALUES (1), (2);
SELECT * FROM log;
ROLLBACK;

-- a trigger runs also for a row that an earlier trigger took away
CREATE TRIGGER clear AFTER INSERT ON v DELETE FROM v;
CREATE TRIGGER still AFTER INSERT ON v REFERENCING NEW AS n FOR EACH ROW INSERT INTO log VALUES ('still', n.a);
INSERT INTO v VALUES (5), (6);
SELECT COUNT(*) FROM v;
SELECT * FROM log;
ROLLBACK;

-- a transition table hides a table of its name after FROM; what a statement changes is the table
CREATE TRIGGER hidden AFTER UPDATE ON t REFERENCING OLD TABLE AS v INSERT INTO v SELECT a FROM v;
INSERT INTO t VALUES (3);
UPDATE t SET a = 4;
SELECT * FROM log WHERE what = 'still';
ROLLBACK;
