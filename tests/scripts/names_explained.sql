-- Of names that come twice the first that comes again, and the table before the columns of UPDATE OF.
CREATE TABLE t (a INT, b INT, UNIQUE (a, b, b, a));
CREATE TABLE t (a INT, b INT);
INSERT INTO t (a, b, b, a) VALUES (1, 2, 3, 4);
UPDATE t SET a = 1, b = 2, b = 3, a = 4;
CREATE TRIGGER r AFTER UPDATE OF x ON nosuch DELETE FROM t;
CREATE TRIGGER r AFTER UPDATE OF x ON t DELETE FROM t;
SELEKT * FROM t;
