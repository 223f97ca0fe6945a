-- AFTER triggers see each row once, as it was before the statement and as it is after all actions.
CREATE TABLE t (k INT PRIMARY KEY, up INT REFERENCES t ON UPDATE CASCADE ON DELETE CASCADE);
CREATE TABLE log (what VARCHAR(9), k INT, up INT, new_k INT, new_up INT);
CREATE TRIGGER u AFTER UPDATE ON t REFERENCING OLD AS o NEW AS n FOR EACH ROW INSERT INTO log VALUES ('update', o.k, o.up, n.k, n.up);
CREATE TRIGGER d AFTER DELETE ON t REFERENCING OLD AS o FOR EACH ROW INSERT INTO log VALUES ('delete', o.k, o.up, NULL, NULL);
INSERT INTO t VALUES (1, 1), (2, 1), (3, 2);

-- the first row is changed in two waves
UPDATE t SET k = 10 WHERE k = 1;
SELECT * FROM log;
DELETE FROM log;

-- equal values are an update all the same
UPDATE t SET up = up;
SELECT COUNT(*) FROM log;
DELETE FROM log;

-- three waves, and the rows by number
DELETE FROM t WHERE k = 10;
SELECT what, k, up FROM log;
ROLLBACK;
