-- The order of the lines of actions, and what is told where an action is refused.
CREATE TABLE p (k INT PRIMARY KEY);
CREATE TABLE c (x INT CONSTRAINT f1 REFERENCES p ON DELETE SET NULL, y INT CONSTRAINT f2 REFERENCES p ON DELETE CASCADE);
CREATE TABLE t (k INT PRIMARY KEY, l INT UNIQUE, x INT CONSTRAINT g1 REFERENCES t (k) ON UPDATE CASCADE CONSTRAINT g2 REFERENCES t (l) ON UPDATE CASCADE, z INT);
CREATE TABLE r (k INT PRIMARY KEY, x INT CONSTRAINT h1 REFERENCES r ON UPDATE CASCADE CONSTRAINT h2 REFERENCES r ON UPDATE RESTRICT, z INT);

-- By row, and then by the foreign key's creation.
INSERT INTO p VALUES (1);
INSERT INTO c VALUES (1, 1), (1, NULL), (NULL, 1);
DELETE FROM p;

-- Two actions that differ tell no line of an action; the row is as it was before the wave.
INSERT INTO t VALUES (1, 1, 1, 0);
UPDATE t SET k = 2, l = 3, z = 9;

-- So it is where RESTRICT refuses the change.
INSERT INTO r VALUES (1, 1, 0);
UPDATE r SET k = 2, z = 9;
ROLLBACK;
