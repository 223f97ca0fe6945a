-- The limits are those of the script's run.
CREATE TABLE t (a INT);
INSERT INTO t VALUES (1);
