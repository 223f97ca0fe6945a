-- Rows that are added, replaced and deleted, between savepoints that are gone back to and released: values, numbers and order come back.
CREATE TABLE p (k INT CONSTRAINT low CHECK (k < 90));
CREATE TABLE c (x INT CONSTRAINT small CHECK (x < 90));
INSERT INTO p VALUES (10);
INSERT INTO c VALUES (20);
INSERT INTO p VALUES (30), (40);
UPDATE p SET k = 31 WHERE k = 30;
SELECT * FROM p;
DELETE FROM p WHERE k = 10;
DELETE FROM p WHERE k = 40;
SELECT * FROM p;
SELECT * FROM c;
INSERT INTO p VALUES (90);
COMMIT;

-- a row that was replaced, one that was added and one that was deleted
START TRANSACTION;
SAVEPOINT a;
UPDATE c SET x = 21;
INSERT INTO p VALUES (50);
SAVEPOINT b;
DELETE FROM p WHERE k = 31;
UPDATE p SET k = k + 1;
SELECT * FROM p;
ROLLBACK TO SAVEPOINT b;
SELECT * FROM p;
INSERT INTO c VALUES (90);
ROLLBACK TO SAVEPOINT a;
SELECT * FROM p;
SELECT * FROM c;
INSERT INTO c VALUES (90);
INSERT INTO c VALUES (22);
ROLLBACK TO SAVEPOINT a;
SELECT * FROM c;

-- a savepoint that is released leaves what was done after it
SAVEPOINT d;
INSERT INTO c VALUES (23);
SAVEPOINT e;
INSERT INTO c VALUES (24);
RELEASE SAVEPOINT d;
ROLLBACK TO SAVEPOINT e;
INSERT INTO c VALUES (90);
SELECT * FROM c;
ROLLBACK;
SELECT * FROM c;
