-- Actions set all referencing columns; CASCADE copies the whole new key, nulls too.
CREATE TABLE p (a INT, b INT, UNIQUE (a, b));
CREATE TABLE n (a INT, b INT, FOREIGN KEY (a, b) REFERENCES p (a, b) ON DELETE SET NULL ON UPDATE SET NULL);
CREATE TABLE f (a INT, b INT, CONSTRAINT whole FOREIGN KEY (a, b) REFERENCES p (a, b) MATCH FULL ON DELETE CASCADE ON UPDATE CASCADE);
CREATE TABLE s (a INT, b INT DEFAULT 7, FOREIGN KEY (b, a) REFERENCES p (b, a) ON UPDATE CASCADE ON DELETE SET DEFAULT);
INSERT INTO p VALUES (1, 2), (3, 4), (5, NULL);
INSERT INTO n VALUES (1, 2), (1, NULL), (3, 4);
INSERT INTO f VALUES (1, 2), (NULL, NULL), (3, 4);
INSERT INTO s VALUES (1, 2), (NULL, 2), (3, 4);
UPDATE p SET b = b + 10 WHERE a = 1;
SELECT * FROM n;
SELECT * FROM f;
SELECT * FROM s;

-- a key that gets a null is lost; the row that follows it is half null, which MATCH FULL doesn't allow
UPDATE p SET b = NULL WHERE a = 3;
DELETE FROM f WHERE a = 3;
UPDATE p SET b = NULL WHERE a = 3;
SELECT * FROM s;

-- SET DEFAULT: the default of A is null, that of B is 7
DELETE FROM p WHERE a = 1;
SELECT * FROM s;
SELECT * FROM f;
SELECT COUNT(*) FROM n WHERE a IS NULL;
ROLLBACK;
