-- Conditions that ask for a key find what a look at every row finds: the rows where they are true, and each refusal.
CREATE TABLE item (id INT PRIMARY KEY, sku VARCHAR(8), part INT, n INT, UNIQUE (sku, part));
CREATE TABLE line (num INT PRIMARY KEY, item INT, CONSTRAINT item_of FOREIGN KEY (item) REFERENCES item (id) ON DELETE CASCADE);
INSERT INTO item VALUES (1, 'A1', 1, 10), (2, 'A1', 2, 20), (3, 'B', 1, 30), (4, NULL, 1, NULL), (-5, 'Ä', NULL, 9223372036854775807);
INSERT INTO line VALUES (1, 1), (2, 3), (3, 1), (4, NULL), (5, -5), (6, 1);

-- by one column, on either side; a key that no row has; null, which no row equals
SELECT n FROM item WHERE id = 2;
SELECT n FROM item WHERE 3 = id;
SELECT id FROM item WHERE id = -5;
SELECT id FROM item WHERE id = 7;
SELECT id FROM item WHERE id = NULL;
SELECT id FROM item WHERE sku = NULL AND part = 1;

-- by two columns, in another order; with one of them alone there is no key
SELECT id FROM item WHERE part = 2 AND sku = 'A1';
SELECT id FROM item WHERE sku = 'A1';
SELECT id FROM item WHERE sku = 'a1' AND part = 1;
SELECT id FROM item WHERE part = 1 AND (sku = 'B' AND n > 29);
SELECT id FROM item WHERE part = 1 AND sku = 'B' AND n > 30;

-- two values for one column
SELECT id FROM item WHERE id = 1 AND id = 2;
SELECT id FROM item WHERE id = 1 AND id = 1;

-- by a foreign key: several rows, by their numbers
SELECT num FROM line WHERE item = 1;
SELECT COUNT(*) FROM line WHERE item = 1 AND num > 1;

-- OR and NOT ask for nothing
SELECT num FROM line WHERE item = 3 OR num = 4;
SELECT num FROM line WHERE NOT item = 1;

-- a row of another key that refuses the condition is met all the same
SELECT id FROM item WHERE id = 1 AND n + 1 > 0;
SELECT id FROM item WHERE n + 1 > 0 AND id = 1;
SELECT id FROM item WHERE id = 1 AND EXISTS (SELECT * FROM line WHERE line.item = item.id AND item.n + 1 > 0);

-- arithmetic that reads nothing of the row
SELECT id FROM item WHERE id = 1 + 1;
SELECT id FROM item WHERE id = 9223372036854775807 + 1;

-- a row of the key that refuses it
SELECT id FROM item WHERE id = -5 AND n + 1 > 0;

-- EXISTS: a column of the range outside; null there
SELECT num FROM line WHERE EXISTS (SELECT * FROM item WHERE item.id = line.item AND item.sku = 'A1');
SELECT num FROM line WHERE NOT EXISTS (SELECT * FROM item WHERE item.id = line.item);
SELECT id FROM item WHERE EXISTS (SELECT * FROM line WHERE item.id = line.item);

-- rows that a statement changed are found by their new keys, and by their old ones where it is undone
DELETE FROM line WHERE item = 3;
UPDATE item SET id = 30 WHERE id = 3;
SELECT sku FROM item WHERE id = 30;
SELECT sku FROM item WHERE id = 3;
SAVEPOINT s;
DELETE FROM item WHERE id = 1;
SELECT num FROM line WHERE item = 1;
ROLLBACK TO SAVEPOINT s;
SELECT num FROM line WHERE item = 1;
UPDATE item SET sku = 'C' WHERE sku = 'B' AND part = 1;
SELECT id FROM item WHERE sku = 'B' AND part = 1;
SELECT id FROM item WHERE sku = 'C' AND part = 1;
ROLLBACK;
SELECT num FROM line WHERE item = 1;

-- in a trigger: WHEN, and the condition of its statement
INSERT INTO item VALUES (1, 'A1', 1, 10), (2, 'A1', 2, 20);
INSERT INTO line VALUES (1, 1), (2, 2);
COMMIT;
CREATE TRIGGER counted AFTER INSERT ON line REFERENCING NEW AS l FOR EACH ROW WHEN (EXISTS (SELECT * FROM item WHERE id = l.item AND n < 100)) UPDATE item SET n = n + 1 WHERE id = l.item;
INSERT INTO line VALUES (3, 1), (4, NULL), (5, 2), (6, 1);
SELECT id, n FROM item;
INSERT INTO item SELECT id + 10, sku, part + 10, n FROM item WHERE id = 2;
SELECT id, part, n FROM item WHERE id = 12;
COMMIT;

-- an EXISTS that no row can refuse stands beside a key
SELECT id FROM item WHERE id = 2 AND NOT EXISTS (SELECT * FROM line WHERE line.item = item.id);
SELECT id FROM item WHERE NOT EXISTS (SELECT * FROM line WHERE line.item = item.id AND line.num > item.part) AND id = 12;
COMMIT;
