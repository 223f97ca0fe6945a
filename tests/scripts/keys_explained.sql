-- Rows with one key: of an integer that isn't the first column, of a text, and of two columns in another order.
CREATE TABLE num (other INT, k INT CONSTRAINT num_k UNIQUE INITIALLY DEFERRED);
CREATE TABLE word (w VARCHAR(10) CONSTRAINT word_w PRIMARY KEY INITIALLY DEFERRED);
CREATE TABLE pair (b INT, a VARCHAR(10), CONSTRAINT pair_ab UNIQUE (a, b) INITIALLY DEFERRED);
-- Here null is equal to null.
CREATE TABLE alike (a INT, b INT, CONSTRAINT alike_ab UNIQUE NULLS NOT DISTINCT (a, b) INITIALLY DEFERRED);
-- The rows with one A are more than those with one A and B.
CREATE TABLE two_keys (a INT CONSTRAINT two_a UNIQUE INITIALLY DEFERRED, b INT, CONSTRAINT two_ab UNIQUE NULLS NOT DISTINCT (a, b) INITIALLY DEFERRED);
INSERT INTO num VALUES (7, 1), (1, 7), (8, 1), (7, 7), (7, NULL), (9, NULL), (1, 9), (8, 1);
INSERT INTO word VALUES ('x'), ('X'), ('x'), (NULL), (''), (NULL), ('');
INSERT INTO pair VALUES (1, 'a'), (2, 'a'), (1, 'b'), (2, 'b'), (2, 'a'), (1, NULL), (1, NULL);
INSERT INTO alike VALUES (1, NULL), (NULL, 1), (NULL, NULL), (1, NULL), (NULL, NULL), (1, 1), (NULL, 1), (2, NULL);
INSERT INTO two_keys VALUES (1, NULL), (1, 2), (1, NULL), (2, NULL), (NULL, 2), (NULL, 2);
COMMIT;

-- Rows that had the key and have another, or are gone, aren't told.
INSERT INTO num VALUES (1, 5), (2, 5), (3, 5), (4, 6);
UPDATE num SET k = 6 WHERE other = 2;
DELETE FROM num WHERE other = 1;
SET CONSTRAINTS num_k IMMEDIATE;
ROLLBACK;
