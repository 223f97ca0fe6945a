-- The rows that refer to a key: those that hold all of it, under MATCH SIMPLE and MATCH FULL; a row with a null refers to none.
CREATE TABLE p (a INT, b INT, PRIMARY KEY (a, b));
CREATE TABLE s (a INT, b INT, FOREIGN KEY (a, b) REFERENCES p MATCH SIMPLE ON DELETE CASCADE);
CREATE TABLE f (a INT, b INT, FOREIGN KEY (b, a) REFERENCES p (b, a) MATCH FULL ON DELETE CASCADE);
INSERT INTO p VALUES (1, 1), (1, 2), (2, 1), (2, 2);
INSERT INTO s VALUES (1, 1), (1, 2), (1, NULL), (NULL, NULL), (1, 1);
INSERT INTO f VALUES (1, 1), (2, 1), (NULL, NULL), (2, 1);
COMMIT;

-- a key without such a row, one with one, and one with two
DELETE FROM p WHERE a = 2 AND b = 2;
SELECT * FROM s;
SELECT * FROM f;
DELETE FROM p WHERE a = 1 AND b = 2;
SELECT * FROM s;
SELECT * FROM f;
DELETE FROM p WHERE a = 2 AND b = 1;
SELECT * FROM s;
SELECT * FROM f;
DELETE FROM p;
SELECT * FROM s;
SELECT * FROM f;
ROLLBACK;
SELECT COUNT(*) FROM s;
SELECT COUNT(*) FROM f;
