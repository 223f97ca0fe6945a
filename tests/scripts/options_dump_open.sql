-- Every statement is accepted, and the transaction is open at the end.
CREATE TABLE t (a INT);
INSERT INTO t VALUES (2);
