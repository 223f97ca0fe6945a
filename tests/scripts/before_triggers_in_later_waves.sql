-- BEFORE row triggers run in every wave, BEFORE statement triggers for the statement's own table alone.
CREATE TABLE p (k INT PRIMARY KEY);
CREATE TABLE c (k INT PRIMARY KEY, x INT REFERENCES p ON UPDATE CASCADE);
CREATE TABLE g (y INT REFERENCES c ON UPDATE CASCADE);
CREATE TRIGGER follow BEFORE UPDATE ON c REFERENCING NEW AS n FOR EACH ROW SET n.k = n.x * 10;
CREATE TRIGGER own BEFORE UPDATE ON g SIGNAL 'its own statement';
INSERT INTO p VALUES (1);
INSERT INTO c VALUES (10, 1);
INSERT INTO g VALUES (10);

-- FOLLOW changes the key of C in the second wave, and the third follows from that
UPDATE p SET k = 2;
SELECT * FROM c;
SELECT * FROM g;
UPDATE g SET y = y;
ROLLBACK;

-- a trigger that takes an action back leaves the row alone; it sees the tables as they are before its wave
CREATE TABLE d (x INT CONSTRAINT stay REFERENCES p ON UPDATE CASCADE);
CREATE TRIGGER back BEFORE UPDATE ON d REFERENCING OLD AS o NEW AS n FOR EACH ROW SET n.x = o.x;
CREATE TRIGGER seen BEFORE UPDATE ON d FOR EACH ROW WHEN (EXISTS (SELECT * FROM p WHERE k = 3)) SIGNAL 'p has changed';
INSERT INTO p VALUES (1);
INSERT INTO d VALUES (1);
UPDATE p SET k = 2;
UPDATE p SET k = 3;
ROLLBACK;
