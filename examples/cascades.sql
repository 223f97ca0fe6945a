-- A shop: what becomes of orders, lines, notes and invoices when a customer goes.
CREATE TABLE customer (id INT PRIMARY KEY, name VARCHAR(20));
CREATE TABLE orders (id INT PRIMARY KEY, customer INT REFERENCES customer ON DELETE CASCADE ON UPDATE CASCADE);
CREATE TABLE line (orders INT REFERENCES orders ON DELETE CASCADE, article INT, pieces INT);
CREATE TABLE note (customer INT REFERENCES customer ON DELETE SET NULL, words VARCHAR(20));
CREATE TABLE invoice (orders INT CONSTRAINT billed REFERENCES orders ON DELETE RESTRICT);
INSERT INTO customer VALUES (1, 'Ann'), (2, 'Bob');
INSERT INTO orders VALUES (10, 1), (11, 1), (20, 2);
INSERT INTO line VALUES (10, 5, 1), (11, 5, 2), (20, 6, 1);
INSERT INTO note VALUES (1, 'pays late'), (2, 'pays');
COMMIT;

-- Ann goes, and with her two orders and their lines. Her note stays, and is about nobody. The answer counts Ann alone.
DELETE FROM customer WHERE id = 1;
SELECT * FROM orders;
SELECT * FROM line;
SELECT * FROM note;
ROLLBACK;

-- Bob gets another number. His order follows; his note says nothing of updates, so it would refer to nobody.
UPDATE customer SET id = 3 WHERE id = 2;
DELETE FROM note WHERE customer = 2;
UPDATE customer SET id = 3 WHERE id = 2;
SELECT * FROM orders;

-- An invoice protects its order, and so the customer, from whom the deletion comes: the whole statement is refused.
INSERT INTO invoice VALUES (11);
DELETE FROM customer WHERE id = 1;
DELETE FROM invoice;
DELETE FROM customer;
SELECT COUNT(*) FROM line;
ROLLBACK;
