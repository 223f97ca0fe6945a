-- A plan for the garden. Savepoints let one try things in the middle of a transaction.
CREATE TABLE plan (day INT CONSTRAINT one_a_day UNIQUE DEFERRABLE, what VARCHAR(20));
INSERT INTO plan VALUES (1, 'dig'), (2, 'sow');
SAVEPOINT morning;
UPDATE plan SET day = day + 1;
INSERT INTO plan VALUES (1, 'rest');
SAVEPOINT noon;
DELETE FROM plan;

-- Back to noon: all three rows are there again.
ROLLBACK TO SAVEPOINT noon;
SELECT * FROM plan;

-- Back to the morning: that takes the savepoint of noon with it.
ROLLBACK TO SAVEPOINT morning;
SELECT * FROM plan;
ROLLBACK TO SAVEPOINT noon;

-- The morning still stands. It brings back the modes of constraints too: ONE_A_DAY is immediate again.
SET CONSTRAINTS one_a_day DEFERRED;
UPDATE plan SET day = 5;
ROLLBACK TO SAVEPOINT morning;
UPDATE plan SET day = 5;

-- RELEASE forgets a savepoint and changes no row.
RELEASE SAVEPOINT morning;
ROLLBACK TO SAVEPOINT morning;
COMMIT;
SELECT * FROM plan;
SAVEPOINT evening;
