-- A comparison with NULL is neither true nor false, and a CHECK refuses only what is false.
CREATE TABLE span (low INT, high INT, CHECK (low <= high), CHECK (low >= 0));

INSERT INTO span VALUES (1, 5);
INSERT INTO span VALUES (NULL, 5);
INSERT INTO span VALUES (1, NULL);
INSERT INTO span VALUES (NULL, NULL);

-- The first CHECK has no name of its own and is called SPAN_C1.
INSERT INTO span VALUES (6, 5);

-- Here the first CHECK is satisfied, for its comparison is with NULL; the second one isn't.
INSERT INTO span VALUES (-1, NULL);
COMMIT;
SELECT * FROM span;
