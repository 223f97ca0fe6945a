-- Which triggers with a list of columns an UPDATE fires: by its SET list, and in later waves by the columns that foreign keys set.
CREATE TABLE p (k INT PRIMARY KEY);
CREATE TABLE c (x INT REFERENCES p ON UPDATE CASCADE, y INT);
CREATE TABLE log (who VARCHAR(9), n INT);
CREATE TRIGGER rx AFTER UPDATE OF x ON c REFERENCING NEW AS n FOR EACH ROW INSERT INTO log VALUES ('rx', n.y);
CREATE TRIGGER sxy AFTER UPDATE OF y, x ON c INSERT INTO log VALUES ('sxy', NULL);
CREATE TRIGGER sy AFTER UPDATE OF y ON c INSERT INTO log VALUES ('sy', NULL);
CREATE TRIGGER bx BEFORE UPDATE OF x ON c REFERENCING NEW AS n FOR EACH ROW SET n.y = n.y + 1;
INSERT INTO p VALUES (1);
INSERT INTO c VALUES (1, 5), (NULL, 7);

-- values that are equal count
UPDATE c SET y = y WHERE x = 1;
SELECT * FROM log;
DELETE FROM log;

-- and so does a SET list without rows
UPDATE c SET x = x WHERE y = 0;
SELECT * FROM log;
DELETE FROM log;

-- what the BEFORE trigger sets doesn't
UPDATE p SET k = 2;
SELECT * FROM c;
SELECT * FROM log;
DELETE FROM log;

-- other events fire none of them
INSERT INTO c VALUES (2, 1);
DELETE FROM c WHERE x = 2;
SELECT COUNT(*) FROM log;
ROLLBACK;
