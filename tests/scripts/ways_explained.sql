-- The way from the statement of a script to the limit that it meets.
CREATE TABLE t (a INT);
CREATE TABLE u (a INT);
CREATE TRIGGER again AFTER INSERT ON t INSERT INTO t VALUES (1);
CREATE TRIGGER after_u AFTER INSERT ON u BEGIN ATOMIC DELETE FROM u WHERE a = 7; INSERT INTO t VALUES (2); END;
INSERT INTO t VALUES (0);
INSERT INTO u VALUES (0);
DROP TRIGGER again;
INSERT INTO u VALUES (1), (2), (3), (4), (5), (6), (7), (8), (9), (10), (11);
INSERT INTO u VALUES (1), (2), (3), (4), (5), (6), (7), (8), (9), (10), (11), (12);
INSERT INTO u VALUES (1), (7), (7), (7), (7), (7), (7);
