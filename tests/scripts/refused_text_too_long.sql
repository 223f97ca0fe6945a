-- 11 TextTooLong: a text has more characters than its column holds.
CREATE TABLE t (a VARCHAR(3), b VARCHAR(5));
INSERT INTO t VALUES ('abcd', 'x');
INSERT INTO t VALUES ('abc', 'abcde');

-- characters count, not bytes, and a doubled quote is one; blanks count
INSERT INTO t VALUES ('éééé', 'x');
INSERT INTO t VALUES ('ééé', 'x');
INSERT INTO t VALUES ('it''s', 'x');
INSERT INTO t VALUES ('i''s', 'x');
INSERT INTO t VALUES ('abc ', 'x');
INSERT INTO t VALUES ('', '');

-- at any row, in a query too
INSERT INTO t VALUES ('abc', 'x'), ('abcd', 'x');
INSERT INTO t SELECT b, a FROM t;
INSERT INTO t SELECT a, b FROM t WHERE a = 'abc';
UPDATE t SET a = b;
UPDATE t SET a = b WHERE b = 'x';
UPDATE t SET a = 'abcd' WHERE 1 = 2;

-- a comparison has no length
SELECT * FROM t WHERE a = 'abcdefghij';
ROLLBACK;

-- in a trigger its name is told
CREATE TRIGGER r BEFORE INSERT ON t REFERENCING NEW AS n FOR EACH ROW SET n.a = n.b;
INSERT INTO t VALUES ('a', 'abcd');
INSERT INTO t VALUES ('a', 'abc');
SELECT * FROM t;
ROLLBACK;
