-- 4 InTransaction: tables, constraints and triggers are made and dropped outside a transaction; this comes before every other cause.
CREATE TABLE t (a INT);
CREATE TRIGGER r AFTER DELETE ON t WHEN (1 = 2) SIGNAL 'x';
START TRANSACTION;
CREATE TABLE u (a INT);
CREATE TABLE t (a INT);
ALTER TABLE t ADD CHECK (a > 0);
ALTER TABLE nothing ADD CHECK (b > 0);
CREATE TRIGGER s AFTER DELETE ON t SIGNAL 'x';
DROP TRIGGER r;
DROP TRIGGER nothing;
COMMIT;
DROP TRIGGER r;

-- a data statement begins a transaction, also one that finds no row
INSERT INTO t VALUES (1);
CREATE TABLE u (a INT);
ROLLBACK;
CREATE TABLE u (a INT);
UPDATE t SET a = 1;
CREATE TABLE v (a INT);
COMMIT;

-- a refused one begins none, and neither does SELECT
INSERT INTO t VALUES (1, 2);
SELECT * FROM t;
CREATE TABLE v (a INT);
ALTER TABLE v ADD CHECK (a > 0);

-- a refused COMMIT ends the transaction
ALTER TABLE t ADD CONSTRAINT late CHECK (a > 0) INITIALLY DEFERRED;
INSERT INTO t VALUES (0);
ALTER TABLE t ADD CHECK (a > 1);
COMMIT;
ALTER TABLE t ADD CHECK (a > 1);
