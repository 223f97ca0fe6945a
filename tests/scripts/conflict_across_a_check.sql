-- Two foreign keys of a column with a CHECK between them set it to different values.
CREATE TABLE p (k1 INT UNIQUE, k2 INT UNIQUE);
CREATE TABLE c (x INT REFERENCES p (k1) ON UPDATE SET NULL CHECK (x > 0) REFERENCES p (k2) ON UPDATE CASCADE);
INSERT INTO p VALUES (5, 5);
INSERT INTO c VALUES (5);
UPDATE p SET k1 = 6, k2 = 7;
UPDATE p SET k1 = 6;
SELECT * FROM c;
ROLLBACK;
