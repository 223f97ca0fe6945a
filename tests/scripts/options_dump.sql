-- A dump in place of the transcript: the table with its constraints, and its rows.
CREATE TABLE t (a INT PRIMARY KEY, b VARCHAR(5) DEFAULT 'x');
INSERT INTO t VALUES (1, DEFAULT), (2, 'it''s');
COMMIT;
