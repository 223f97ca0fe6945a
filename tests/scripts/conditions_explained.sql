-- CHECKs with their conditions, and constraints without a name.
CREATE TABLE book (id INT PRIMARY KEY, title VARCHAR(40), price INT CONSTRAINT fair CHECK (price > 0), pieces INT CHECK (pieces >= 0 OR price * pieces > -100));
INSERT INTO book VALUES (1, 'Emma', 8, 2);
INSERT INTO book VALUES (2, 'Walden', -1, 5);
INSERT INTO book VALUES (2, 'Walden', 60, -2);
INSERT INTO book VALUES (1, 'Walden', 60, NULL);
ROLLBACK;
CREATE TABLE p (k INT, l INT, UNIQUE (k, l));
CREATE TABLE c (x INT, y INT, FOREIGN KEY (y, x) REFERENCES p (k, l) MATCH FULL INITIALLY DEFERRED, UNIQUE NULLS NOT DISTINCT (x), CHECK (NOT (x > 5 AND NOT y - (x - 1) < -3 OR (x + y) * -2 = 7)));
INSERT INTO c VALUES (1, NULL);
INSERT INTO c VALUES (1, 2);
INSERT INTO c VALUES (10, 20);
COMMIT;
