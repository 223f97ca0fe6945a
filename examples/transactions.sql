-- COMMIT and ROLLBACK outside a transaction do nothing.
ROLLBACK;
CREATE TABLE visit (day INT, guests INT);
INSERT INTO visit VALUES (1, 12);
COMMIT;

-- An INSERT begins a transaction; inside one no table can be made.
INSERT INTO visit VALUES (2, 7);
CREATE TABLE guest (number INT);
SELECT * FROM visit;

-- ROLLBACK brings back what was there when the transaction began.
ROLLBACK;
SELECT * FROM visit;
CREATE TABLE guest (number INT);

-- Number and order of the values are those of the columns.
INSERT INTO guest VALUES (1, 2);

-- The transaction that is still open at the end of the script is rolled back.
INSERT INTO guest VALUES (1);
