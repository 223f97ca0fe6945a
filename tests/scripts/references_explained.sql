-- What a row that refers to no key is told: the values are in the order of the foreign key's columns.
CREATE TABLE p (a INT, b INT, CONSTRAINT pair UNIQUE NULLS NOT DISTINCT (a, b));
CREATE TABLE c (a INT, b INT, CONSTRAINT f FOREIGN KEY (a, b) REFERENCES p (a, b) MATCH FULL);
CREATE TABLE d (a INT, b INT, CONSTRAINT g FOREIGN KEY (a, b) REFERENCES p (b, a), CONSTRAINT h FOREIGN KEY (b, a) REFERENCES p (a, b) INITIALLY DEFERRED);
INSERT INTO p VALUES (1, NULL), (1, 2);

-- MATCH FULL refuses some nulls, though a row with these values is there; all nulls refer to nothing.
INSERT INTO c VALUES (1, NULL);
INSERT INTO c VALUES (NULL, NULL), (1, 2), (NULL, 2);
INSERT INTO c VALUES (2, 2);
INSERT INTO c VALUES (NULL, NULL), (1, 2);

-- (b, a) of the row is the key (a, b) of P both times.
INSERT INTO d VALUES (1, 2);
INSERT INTO d VALUES (2, 1);
UPDATE p SET b = 3 WHERE b = 2;
ROLLBACK;
