-- 19 CommitRefused: COMMIT finds a constraint violated, takes everything back and ends the transaction.
CREATE TABLE t (a INT CONSTRAINT c1 CHECK (a > 1) INITIALLY DEFERRED, b INT CONSTRAINT c2 CHECK (b > 1) INITIALLY DEFERRED, CONSTRAINT c3 UNIQUE (a, b) DEFERRABLE);
INSERT INTO t VALUES (2, 2);
COMMIT;

-- the constraint that was created first, then the least row
INSERT INTO t VALUES (2, 1), (1, 2);
COMMIT;
SELECT * FROM t;

-- the numbers are given back
INSERT INTO t VALUES (1, 1);
UPDATE t SET a = 2 WHERE a = 1;
COMMIT;

-- what is mended in time is no violation
INSERT INTO t VALUES (0, 0);
DELETE FROM t WHERE a = 0;
COMMIT;
COMMIT;

-- both rows of an equal pair violate UNIQUE; afterwards the modes are initial, and no transaction is open
START TRANSACTION;
SAVEPOINT s;
SET CONSTRAINTS c3 DEFERRED;
INSERT INTO t VALUES (2, 2);
COMMIT;
INSERT INTO t VALUES (2, 2);
ROLLBACK TO SAVEPOINT s;
CREATE TABLE u (a INT);
