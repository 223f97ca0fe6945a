-- Two foreign keys that set a column to different values: which of them, which column, and to what.
CREATE TABLE p (k INT, l VARCHAR(9), PRIMARY KEY (k, l), CONSTRAINT other UNIQUE (l));
CREATE TABLE c (x INT DEFAULT 9, y VARCHAR(9) DEFAULT 'it''s',
    CONSTRAINT f1 FOREIGN KEY (x, y) REFERENCES p (k, l) ON UPDATE CASCADE ON DELETE SET NULL,
    CONSTRAINT f2 FOREIGN KEY (y) REFERENCES p (l) ON UPDATE SET DEFAULT ON DELETE SET DEFAULT,
    CONSTRAINT f3 FOREIGN KEY (x, y) REFERENCES p (k, l) ON UPDATE SET DEFAULT ON DELETE NO ACTION);
INSERT INTO p VALUES (1, 'a');
INSERT INTO c VALUES (1, 'a');

-- F1 copies the new key, F2 and F3 take defaults. F2 disagrees first, about Y alone.
UPDATE p SET l = 'b';
-- L stays, and F2 has nothing to do; F3 disagrees with F1 about X, its first column.
UPDATE p SET k = 2;
DELETE FROM p;

-- Inside of a trigger's body.
COMMIT;
CREATE TABLE t (a INT);
CREATE TRIGGER r AFTER INSERT ON t UPDATE p SET k = 2;
INSERT INTO t VALUES (1);
