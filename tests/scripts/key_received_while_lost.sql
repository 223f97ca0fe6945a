-- A row that gets a key in the very wave in which that key is lost didn't hold it before, so no action follows: it dangles.
CREATE TABLE a (k INT PRIMARY KEY, up INT REFERENCES a ON DELETE CASCADE);
CREATE TABLE c (x INT DEFAULT 9 CONSTRAINT f REFERENCES a ON DELETE SET DEFAULT);
INSERT INTO a VALUES (1, NULL), (9, 1), (10, 9), (2, NULL);
INSERT INTO c VALUES (1), (2), (NULL);

-- the second wave deletes 9 and 10 follows in the third, while C's first row becomes 9 in the second
DELETE FROM a WHERE k = 1;
DELETE FROM a WHERE k = 2;
SELECT * FROM c;

-- C's second row, which holds 9, is set to 9 again, and then there is no 9
DELETE FROM a WHERE k = 9;
DELETE FROM c;
DELETE FROM a WHERE k = 1;
SELECT COUNT(*) FROM a;
ROLLBACK;
