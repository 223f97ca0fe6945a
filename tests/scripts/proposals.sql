-- The row changes that INSERT, UPDATE and DELETE propose, and the rows that SELECT gives.
CREATE TABLE t (a INT DEFAULT 7, b VARCHAR(3) DEFAULT 'abc');
CREATE TABLE u (a INT, b VARCHAR(3));
CREATE TRIGGER took AFTER DELETE ON u REFERENCING OLD TABLE AS o INSERT INTO t SELECT * FROM o WHERE a < 3;
CREATE TRIGGER set_u AFTER UPDATE ON u REFERENCING NEW TABLE AS n INSERT INTO t SELECT * FROM n WHERE a < 3;

-- by row, and not where the condition is unknown
INSERT INTO t VALUES (1, 'x'), (NULL, NULL), (3, 'xyz');
UPDATE t SET a = a + 2, b = b WHERE a >= 1;
SELECT * FROM t;
ROLLBACK;
INSERT INTO t VALUES (1, 'x'), (NULL, NULL), (3, 'xyz');
UPDATE t SET a = a + 9223372036854775807, b = b WHERE a >= 1;
DELETE FROM t WHERE a <> 3;
SELECT * FROM t;
ROLLBACK;

-- tuples, with columns listed and not
INSERT INTO t (b) VALUES ('k'), ('abc');
INSERT INTO t (b) VALUES ('k'), ('abcd');
INSERT INTO t VALUES (NULL);
INSERT INTO t VALUES (NULL, NULL);
INSERT INTO t VALUES (NULL, NULL, NULL);
SELECT * FROM t;
ROLLBACK;

-- rows of a query over the table itself, and over transition tables
INSERT INTO t VALUES (1, 'x'), (NULL, NULL), (3, 'xyz');
INSERT INTO t SELECT * FROM t WHERE a < 3;
INSERT INTO t (a) SELECT a + 1 FROM t WHERE a < 4;
SELECT * FROM t;
INSERT INTO u VALUES (2, 'old'), (5, 'big');
DELETE FROM u;
UPDATE u SET a = 1;
SELECT * FROM t WHERE b = 'old';
SELECT * FROM t WHERE a <= 3;
SELECT a + 1 FROM t WHERE a <= 3;
SELECT COUNT(*) FROM t WHERE a <= 3;
SELECT COUNT(*) FROM t;
ROLLBACK;
