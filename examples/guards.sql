-- Accounts again, with triggers that run before a row is stored. They fill it, change it, or say no.
CREATE TABLE account (id INT PRIMARY KEY, owner VARCHAR(20), balance INT);
CREATE TRIGGER fill BEFORE INSERT ON account REFERENCING NEW AS n FOR EACH ROW
    WHEN (n.balance IS NULL) SET n.balance = 0;
CREATE TRIGGER ceiling BEFORE UPDATE ON account REFERENCING OLD AS o NEW AS n FOR EACH ROW
    WHEN (n.balance > o.balance + 1000) SET n.balance = o.balance + 1000;
CREATE TRIGGER overdrawn BEFORE UPDATE ON account REFERENCING NEW AS n FOR EACH ROW
    WHEN (n.balance < 0) SIGNAL 'overdrawn';
CREATE TRIGGER keeper BEFORE DELETE ON account SIGNAL 'accounts stay';

-- Ann has no balance yet, so FILL gives her 0.
INSERT INTO account (id, owner) VALUES (1, 'Ann');
INSERT INTO account VALUES (2, 'Bob', 50);
SELECT * FROM account;

-- One row that is overdrawn refuses the whole statement; Bob keeps what he has, too.
UPDATE account SET balance = balance - 20;
UPDATE account SET balance = balance - 20 WHERE owner = 'Bob';

-- CEILING lets a balance rise by no more than 1000.
UPDATE account SET balance = 5000;
SELECT owner, balance FROM account;

-- KEEPER is for the statement and not for each row, so it runs even where there is nothing to delete.
DELETE FROM account;
DELETE FROM account WHERE id = 77;
COMMIT;
DROP TRIGGER keeper;
DELETE FROM account WHERE id = 2;
COMMIT;
