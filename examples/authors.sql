CREATE TABLE author (name VARCHAR(20) PRIMARY KEY);
CREATE TABLE book (
    title VARCHAR(30) PRIMARY KEY,
    author VARCHAR(20) CONSTRAINT written_by REFERENCES author ON DELETE CASCADE INITIALLY DEFERRED
);
CREATE TABLE removed (title VARCHAR(30));
CREATE TRIGGER log_removed AFTER DELETE ON book REFERENCING OLD AS o FOR EACH ROW
    INSERT INTO removed VALUES (o.title);
INSERT INTO book VALUES ('Emma', 'Austen'), ('Persuasion', 'Austen');
INSERT INTO author VALUES ('Austen');
COMMIT;
DELETE FROM author WHERE name = 'Austen';
SELECT title FROM removed;
INSERT INTO book VALUES ('Dracula', 'Stoker');
COMMIT;
