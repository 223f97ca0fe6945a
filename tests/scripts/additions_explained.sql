-- What an account tells of a constraint that ALTER TABLE doesn't add: the first row that violates it, and why.
CREATE TABLE author (name VARCHAR(20) PRIMARY KEY, born INT);
CREATE TABLE book (title VARCHAR(20), writer VARCHAR(20), price INT);
INSERT INTO author VALUES ('Austen', 1775), ('Stoker', 1847);
INSERT INTO book VALUES ('Emma', 'Austen', 8), ('Dracula', 'Stoker', -1), ('Walden', 'Thoreau', NULL), ('Emma', NULL, 5);
COMMIT;
ALTER TABLE book ADD CONSTRAINT priced CHECK (price > 0 OR price IS NULL);
ALTER TABLE book ADD CHECK (price >= 0) INITIALLY DEFERRED;
ALTER TABLE book ADD CHECK (price > -2);
ALTER TABLE book ADD CONSTRAINT one_title UNIQUE (title);
ALTER TABLE book ADD UNIQUE (title, writer);
ALTER TABLE book ADD PRIMARY KEY (writer);
ALTER TABLE book ADD PRIMARY KEY (title);
ALTER TABLE book ADD CONSTRAINT written_by FOREIGN KEY (writer) REFERENCES author;
ALTER TABLE book ADD FOREIGN KEY (writer) REFERENCES author ON DELETE CASCADE;
ALTER TABLE book ADD CHECK (price * 9223372036854775807 < 9);

-- the row goes, and the constraint is added
DELETE FROM book WHERE writer = 'Thoreau';
COMMIT;
ALTER TABLE book ADD CONSTRAINT written_by FOREIGN KEY (writer) REFERENCES author;

-- two nulls are one key
INSERT INTO book VALUES ('Sanditon', NULL, 3);
COMMIT;
ALTER TABLE book ADD UNIQUE NULLS NOT DISTINCT (writer);

-- some nulls in a key
CREATE TABLE pair (a INT, b INT, UNIQUE (a, b));
CREATE TABLE of_pair (x INT, y INT);
INSERT INTO of_pair VALUES (NULL, NULL), (NULL, 2);
COMMIT;
ALTER TABLE of_pair ADD FOREIGN KEY (x, y) REFERENCES pair (a, b) MATCH FULL;
ALTER TABLE of_pair ADD FOREIGN KEY (x, y) REFERENCES pair (a, b);
