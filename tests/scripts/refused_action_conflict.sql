-- 14 ActionConflict: two foreign keys set one column of a row to different values.
CREATE TABLE p (k INT PRIMARY KEY, l INT UNIQUE);
CREATE TABLE c (x INT, y INT DEFAULT 0, CONSTRAINT f1 FOREIGN KEY (x) REFERENCES p (k) ON UPDATE CASCADE, CONSTRAINT f2 FOREIGN KEY (x) REFERENCES p (l) ON UPDATE CASCADE);
CREATE TABLE d (x INT, CONSTRAINT g1 FOREIGN KEY (x) REFERENCES p (k) ON DELETE SET NULL, CONSTRAINT g2 FOREIGN KEY (x) REFERENCES p (l) ON DELETE CASCADE);
CREATE TABLE e (x INT DEFAULT 2, CONSTRAINT h1 FOREIGN KEY (x) REFERENCES p (k) ON DELETE SET NULL, CONSTRAINT h2 FOREIGN KEY (x) REFERENCES p (l) ON DELETE SET DEFAULT);
INSERT INTO p VALUES (1, 1), (2, 2);
INSERT INTO c VALUES (1, 0), (2, 0);
COMMIT;

-- two new keys for one column; the foreign key that disagrees with an earlier one is told, and the first row
UPDATE p SET k = k + 10, l = l + 20;
UPDATE p SET k = k + 10, l = l + 20 WHERE k = 2;

-- the same value is no conflict
UPDATE p SET k = k + 10, l = l + 10;
SELECT * FROM c;
ROLLBACK;

-- a deletion wins over the other action; SET NULL and SET DEFAULT disagree where the default isn't null
DELETE FROM c;
INSERT INTO d VALUES (1), (2);
DELETE FROM p WHERE k = 1;
SELECT * FROM d;
INSERT INTO e VALUES (2);
DELETE FROM p;
ROLLBACK;
