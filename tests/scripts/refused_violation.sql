-- 13 Violation: an immediate constraint is violated when a statement ends, or when SET CONSTRAINTS makes it immediate.
CREATE TABLE p (k INT CONSTRAINT p_key PRIMARY KEY);
CREATE TABLE t (a INT CONSTRAINT given NOT NULL, b INT CONSTRAINT positive CHECK (b > 0), c INT CONSTRAINT different UNIQUE, d INT CONSTRAINT parent REFERENCES p);
INSERT INTO p VALUES (1), (2);

-- PRIMARY KEY: no null, and no other row has the key; both rows of a pair violate it, so the first is told
INSERT INTO p VALUES (NULL);
INSERT INTO p VALUES (1);

-- NOT NULL, CHECK, FOREIGN KEY, UNIQUE
INSERT INTO t VALUES (NULL, 1, 1, 1);
INSERT INTO t VALUES (1, 0, 1, 1);
INSERT INTO t VALUES (1, 1, 1, 3);
INSERT INTO t VALUES (1, 1, 1, 1);
INSERT INTO t VALUES (1, 1, 1, 1);
INSERT INTO t VALUES (1, NULL, NULL, NULL), (1, NULL, NULL, NULL);

-- the constraint that was created first, then the least row
INSERT INTO t VALUES (NULL, 0, 1, 3);
INSERT INTO t VALUES (1, 0, 2, 2), (NULL, 1, 3, 2);
INSERT INTO t VALUES (1, 1, 2, 2), (1, -1, 3, 2), (1, -2, 4, 2);

-- a lost parent is a violation of the referencing row; what counts is the end of the statement
DELETE FROM p WHERE k = 1;
UPDATE p SET k = k + 1;
UPDATE p SET k = 3 - k;
DELETE FROM p WHERE k = 2;
COMMIT;

-- MATCH SIMPLE and MATCH FULL, where some column is null
CREATE TABLE pair (a INT, b INT, PRIMARY KEY (a, b));
CREATE TABLE some (a INT, b INT, CONSTRAINT s FOREIGN KEY (a, b) REFERENCES pair MATCH SIMPLE);
CREATE TABLE whole (a INT, b INT, CONSTRAINT w FOREIGN KEY (a, b) REFERENCES pair MATCH FULL);
INSERT INTO pair VALUES (1, NULL);
INSERT INTO some VALUES (1, NULL), (NULL, NULL);
INSERT INTO some VALUES (1, 1);
INSERT INTO whole VALUES (NULL, NULL);
INSERT INTO whole VALUES (1, NULL);
INSERT INTO whole VALUES (1, 1);
INSERT INTO pair VALUES (1, 1);
INSERT INTO whole VALUES (1, 1);
COMMIT;

-- SET CONSTRAINTS: of those that become immediate, the one that was created first, whatever the list says
CREATE TABLE z (a INT CONSTRAINT z1 CHECK (a > 1) INITIALLY DEFERRED, b INT CONSTRAINT z2 CHECK (b > 1) INITIALLY DEFERRED);
INSERT INTO z VALUES (2, 1), (1, 2);
SET CONSTRAINTS z2 IMMEDIATE;
SET CONSTRAINTS z2, z1 IMMEDIATE;
SET CONSTRAINTS ALL IMMEDIATE;
UPDATE z SET a = 2;
SET CONSTRAINTS z1 IMMEDIATE;
UPDATE z SET a = 1;
ROLLBACK;
