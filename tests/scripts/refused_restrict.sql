-- 12 Restrict: a row refers to a key that was lost under RESTRICT.
CREATE TABLE p (k INT PRIMARY KEY);
CREATE TABLE c (x INT CONSTRAINT fk REFERENCES p ON DELETE RESTRICT ON UPDATE RESTRICT INITIALLY DEFERRED);
CREATE TABLE q (z INT);
CREATE TABLE t (k INT PRIMARY KEY, up INT CONSTRAINT own REFERENCES t ON DELETE RESTRICT);
CREATE TRIGGER r AFTER INSERT ON q DELETE FROM p;
INSERT INTO p VALUES (1), (2), (3);
INSERT INTO c VALUES (2), (2), (NULL);
COMMIT;

-- whatever the constraint's mode; the first row by number
DELETE FROM p;
DELETE FROM p WHERE k <> 2;
UPDATE p SET k = 5;

-- a key that is the same afterwards isn't lost, and a null refers to nothing
UPDATE p SET k = 2;

-- inside a trigger
INSERT INTO q VALUES (1);
UPDATE c SET x = NULL;
INSERT INTO q VALUES (1);
SELECT COUNT(*) FROM p;
ROLLBACK;

-- a row that goes in the same statement counts too: rows 7 and 8
INSERT INTO t VALUES (1, NULL), (2, 1);
DELETE FROM t;
DELETE FROM t WHERE k = 2;
DELETE FROM t;
ROLLBACK;

-- the foreign key that was created first, before the least row
CREATE TABLE d (x INT CONSTRAINT second REFERENCES p ON DELETE RESTRICT);
INSERT INTO d VALUES (1);
DELETE FROM p;
DELETE FROM p WHERE k = 1;
ROLLBACK;
