-- Row numbers run over all tables; what is undone gives its numbers back, and what was committed keeps them.
CREATE TABLE t (a INT CONSTRAINT small CHECK (a < 9));
CREATE TABLE u (a INT CONSTRAINT tiny CHECK (a < 5));
CREATE TRIGGER copy AFTER INSERT ON t REFERENCING NEW AS n FOR EACH ROW WHEN (n.a > 6) INSERT INTO u VALUES (n.a - 4);
INSERT INTO t VALUES (1), (2);
INSERT INTO u VALUES (5);
INSERT INTO u VALUES (1);

-- row 4, and by COPY row 5
INSERT INTO t VALUES (7);
INSERT INTO t VALUES (8), (9);
INSERT INTO t VALUES (9);
DELETE FROM t WHERE a = 2;
COMMIT;
INSERT INTO t VALUES (9);

-- the number of a row that comes and goes isn't given again, in its transaction and afterwards
INSERT INTO t VALUES (3);
DELETE FROM t WHERE a = 3;
INSERT INTO t VALUES (9);
COMMIT;
INSERT INTO t VALUES (9);
INSERT INTO t VALUES (4);
ROLLBACK;
INSERT INTO t VALUES (9);

-- an update leaves a row its number, and its place in a SELECT
UPDATE t SET a = 9 WHERE a = 7;
UPDATE t SET a = 8 WHERE a = 1;
SELECT * FROM t;
ROLLBACK;
