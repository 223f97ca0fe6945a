-- A store room: triggers that run after a statement keep the stock and a log.
CREATE TABLE stock (article INT PRIMARY KEY, pieces INT CONSTRAINT enough CHECK (pieces >= 0));
CREATE TABLE sale (article INT REFERENCES stock ON DELETE CASCADE, pieces INT);
CREATE TABLE log (what VARCHAR(20), article INT, pieces INT);
CREATE TRIGGER take AFTER INSERT ON sale REFERENCING NEW AS n FOR EACH ROW
    UPDATE stock SET pieces = pieces - n.pieces WHERE article = n.article;
CREATE TRIGGER track AFTER UPDATE ON stock REFERENCING OLD AS o NEW AS n FOR EACH ROW
    INSERT INTO log VALUES ('stock', n.article, n.pieces - o.pieces);
CREATE TRIGGER gone AFTER DELETE ON sale REFERENCING OLD TABLE AS olds
    INSERT INTO log SELECT 'sale gone', article, pieces FROM olds;
CREATE TRIGGER closed AFTER DELETE ON stock INSERT INTO log VALUES ('stock deleted', NULL, NULL);

-- Each sale takes its pieces from the stock by TAKE, and that statement fires TRACK.
INSERT INTO stock VALUES (1, 10), (2, 5);
INSERT INTO sale VALUES (1, 3), (2, 5);
SELECT * FROM stock;

-- The second sale has too little left: ENOUGH is violated inside TAKE. Nothing of the statement stays, not even the first sale.
INSERT INTO sale VALUES (1, 2), (2, 1);
SELECT * FROM stock;

-- The sales of article 2 go by CASCADE, and GONE sees them. It was made before CLOSED, so it runs first.
DELETE FROM stock WHERE article = 2;

-- CLOSED is for the statement, so it runs also where no row was found; no sale went, so GONE doesn't.
DELETE FROM stock WHERE article = 77;
SELECT * FROM log;
COMMIT;
