-- Which violations of deferred constraints come and go in a transaction.
CREATE TABLE author (name VARCHAR(10) CONSTRAINT known PRIMARY KEY);
CREATE TABLE book (
    id INT CONSTRAINT numbered PRIMARY KEY INITIALLY DEFERRED,
    title VARCHAR(10) CONSTRAINT titled NOT NULL INITIALLY DEFERRED,
    writer VARCHAR(10) CONSTRAINT written_by REFERENCES author DEFERRABLE,
    price INT CONSTRAINT priced CHECK (price > 0) INITIALLY DEFERRED
);
INSERT INTO book VALUES (NULL, NULL, NULL, 0), (1, 'Emma', NULL, 8), (1, 'Sense', NULL, -1);
SAVEPOINT s;

-- A refusal changes nothing, and so does a mode by itself.
UPDATE book SET writer = 'Austen';
SET CONSTRAINTS written_by DEFERRED;
UPDATE book SET writer = 'Austen' WHERE id = 1;

-- Row 3 has other values, and violates WRITTEN_BY as before.
UPDATE book SET id = 2, price = 9 WHERE title = 'Sense';

-- Some come and some go.
UPDATE book SET id = 2, writer = NULL WHERE title = 'Emma';
SET CONSTRAINTS titled IMMEDIATE;
DELETE FROM book WHERE title IS NULL;
SET CONSTRAINTS titled, priced IMMEDIATE;
INSERT INTO author VALUES ('Austen');

-- To go back brings some again.
ROLLBACK TO SAVEPOINT s;
RELEASE SAVEPOINT s;
DELETE FROM book WHERE id = 1;
SELECT COUNT(*) FROM book;

-- The end of a transaction tells none.
COMMIT;
INSERT INTO book VALUES (1, NULL, NULL, 8);
ROLLBACK;

-- What a trigger's body does counts as well.
CREATE TRIGGER again AFTER INSERT ON author REFERENCING NEW AS n FOR EACH ROW
    INSERT INTO book VALUES (7, NULL, n.name, 0);
INSERT INTO author VALUES ('Woolf'), ('Eliot');
START TRANSACTION;
