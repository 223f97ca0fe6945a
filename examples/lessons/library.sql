--# Keys: a library
--# A library lends books. The tables below take whatever they are given: two books with one number, a loan of a book that isn't there,
--# a book without a title.
--#
--# Add constraints to the two `CREATE TABLE` statements, and nothing else:
--# - each book has a number of its own and a title;
--# - a loan is of a book that is there, and **each book is lent at most once**;
--# - a loan lasts 1 to 28 days. If nothing is said, it lasts 14.
--? Which constraint makes a column neither NULL nor the same in two rows?
--! `PRIMARY KEY`. `UNIQUE` alone allows NULL in several rows.
CREATE TABLE book (number INT, title VARCHAR(40));
CREATE TABLE loan (book INT, reader VARCHAR(40), days INT);

--? What is the difference between a row without a value for `days` and a row with NULL for `days`?
--! A column that the INSERT doesn't name gets its DEFAULT. A NULL that is written stays NULL, and a CHECK takes it, since it isn't false.
INSERT INTO book VALUES (1, 'Emma');
INSERT INTO loan (book, reader) VALUES (1, 'Ann');

--@ accepts: INSERT INTO book VALUES (2, 'Ulysses');
--@ accepts: INSERT INTO loan VALUES (2, 'Bob', 28);
--@ refuses Violation: INSERT INTO book VALUES (1, 'Faust');
--@ refuses Violation: INSERT INTO book VALUES (NULL, 'Faust');
--@ refuses Violation: INSERT INTO book VALUES (3, NULL);
--@ refuses Violation: INSERT INTO loan VALUES (1, 'Bob', 14);
--@ refuses Violation: INSERT INTO loan VALUES (9, 'Bob', 14);
--@ accepts: INSERT INTO book VALUES (3, 'Faust');
--@ refuses Violation: INSERT INTO loan VALUES (3, 'Bob', 29);
--@ refuses Violation: INSERT INTO loan VALUES (3, 'Bob', 0);
--@ accepts: INSERT INTO book VALUES (14, 'Walden');
--@ accepts: INSERT INTO book SELECT days + 100, 'lent by default' FROM loan WHERE book = 1;
--@ accepts: UPDATE book SET title = 'fourteen days' WHERE number = 114;
--@ refuses Violation: INSERT INTO book VALUES (114, 'the same');
