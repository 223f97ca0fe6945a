-- What an account tells of texts that are too long.
CREATE TABLE book (title VARCHAR(5), price INT);
CREATE TABLE shelf (title VARCHAR(20), price INT);
INSERT INTO book VALUES ('Emma', 1), ('Persuasion', 2);
INSERT INTO book (price, title) VALUES (9223372036854775807 + 1, 'Persuasion');
INSERT INTO book (title, price) VALUES ('Persuasion', 9223372036854775807 + 1);
INSERT INTO book (title) VALUES ('äöüßéx');
INSERT INTO shelf VALUES ('Emma', 1), ('Persuasion', 2);
INSERT INTO book SELECT * FROM shelf;
INSERT INTO book (price, title) SELECT price, title FROM shelf WHERE price > 1;
INSERT INTO book VALUES ('Emma', 1), ('', 2);
UPDATE book SET price = 3, title = 'Emma again';
UPDATE book SET title = 'Emmas ' WHERE price = 2;
COMMIT;
CREATE TRIGGER named BEFORE INSERT ON book REFERENCING NEW AS n FOR EACH ROW WHEN (n.price > 7) SET n.title = 'as ever';
INSERT INTO book VALUES ('a', 7), ('b', 8);
DROP TRIGGER named;
CREATE TRIGGER copied AFTER INSERT ON shelf REFERENCING NEW AS n FOR EACH ROW INSERT INTO book VALUES (n.title, n.price);
INSERT INTO shelf VALUES ('Walden', 4);
