-- Accounts. A number has to be known at once; a balance has to be right when the transaction ends.
CREATE TABLE account (
    number INT,
    balance INT,
    CONSTRAINT known CHECK (number > 0),
    CONSTRAINT solvent CHECK (balance >= 0) INITIALLY DEFERRED
);

-- Statement 2 is accepted: it adds one row, and begins a transaction.
INSERT INTO account VALUES (1, 50);

-- Statement 3 is refused: KNOWN is checked at once. The first row stays.
INSERT INTO account VALUES (-1, 50);

-- Statement 4 is accepted, although SOLVENT is violated: that CHECK is deferred.
INSERT INTO account VALUES (2, -20);
SELECT * FROM account;

-- Statement 6, COMMIT, checks every constraint. Row 2 violates SOLVENT, so all rows of the transaction go.
COMMIT;
SELECT * FROM account;

-- A transaction that satisfies every constraint at its end is accepted.
INSERT INTO account VALUES (1, 50);
COMMIT;
SELECT * FROM account;
