-- A library. Each book has a number of its own, and no two books stand in one place.
CREATE TABLE book (
    number INT PRIMARY KEY,
    title VARCHAR(30) NOT NULL,
    shelf INT,
    place INT,
    CONSTRAINT one_place UNIQUE (shelf, place)
);
INSERT INTO book VALUES (1, 'Emma', 1, 1), (2, 'Ulysses', 1, 2), (3, 'Walden', NULL, NULL);

-- A primary key is never null, and comes once. It has no name of its own: it is BOOK_C1, the first constraint of BOOK.
INSERT INTO book (title) VALUES ('Faust');

-- Rows 1 and 4 have one number then. Both violate the key, and the first is told.
INSERT INTO book (number, title) VALUES (1, 'Faust');

-- NOT NULL is a constraint too, BOOK_C2.
INSERT INTO book (number) VALUES (4);

-- Two books in one place violate ONE_PLACE. A null is equal to nothing, so many books may have no place yet.
INSERT INTO book VALUES (4, 'Faust', 1, 2);
INSERT INTO book VALUES (4, 'Faust', 1, NULL), (5, 'Iliad', 1, NULL);

-- All rows of a statement change at once, so numbers can be shifted and places exchanged.
UPDATE book SET number = number + 1;
UPDATE book SET place = 3 - place WHERE shelf = 1;
UPDATE book SET place = 1 WHERE shelf = 1;
SELECT number, title, place FROM book;
COMMIT;
