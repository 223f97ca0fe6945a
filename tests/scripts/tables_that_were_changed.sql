-- A constraint is tested where its table was changed in the transaction, or the table that it refers to.
CREATE TABLE p (k INT PRIMARY KEY);
CREATE TABLE c (x INT CONSTRAINT f REFERENCES p INITIALLY DEFERRED);
CREATE TABLE u (a INT CONSTRAINT pos CHECK (a > 0) INITIALLY DEFERRED);
CREATE TABLE v (a INT UNIQUE);
INSERT INTO p VALUES (1), (2);
INSERT INTO c VALUES (1);
INSERT INTO v VALUES (1);
COMMIT;

-- the referenced table alone is changed
DELETE FROM p WHERE k = 1;
INSERT INTO v VALUES (2);
COMMIT;
SELECT * FROM p;

-- a violation stays while other tables are changed
INSERT INTO u VALUES (0);
INSERT INTO v VALUES (2);
INSERT INTO v VALUES (1);
DELETE FROM v;
SET CONSTRAINTS ALL IMMEDIATE;

-- it comes back with the savepoint
SAVEPOINT s;
UPDATE u SET a = 1;
SET CONSTRAINTS ALL IMMEDIATE;
DELETE FROM p WHERE k = 1;
ROLLBACK TO SAVEPOINT s;
SET CONSTRAINTS pos IMMEDIATE;
DELETE FROM u;
COMMIT;

-- a table of an earlier transaction is tested once it is changed again
INSERT INTO v VALUES (7), (8);
COMMIT;
INSERT INTO v VALUES (7);
INSERT INTO c VALUES (2);
ROLLBACK;
DELETE FROM p WHERE k = 2;
COMMIT;
