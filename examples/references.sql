-- Towns and countries. A row that refers to another is right only while that other row is there.
CREATE TABLE country (code VARCHAR(2) PRIMARY KEY);
CREATE TABLE town (
    name VARCHAR(20) PRIMARY KEY,
    code VARCHAR(2) CONSTRAINT in_country REFERENCES country
);
INSERT INTO town VALUES ('Brno', 'CZ');
INSERT INTO country VALUES ('CZ'), ('AT');

-- A null refers to nothing, so Atlantis is in no country.
INSERT INTO town VALUES ('Brno', 'CZ'), ('Wien', 'AT'), ('Atlantis', NULL);

-- A country that a town refers to can't go, or change its code. Row 4 is the town that would be left alone.
DELETE FROM country WHERE code = 'AT';
UPDATE country SET code = 'OE' WHERE code = 'AT';
DELETE FROM town WHERE code = 'AT';
DELETE FROM country WHERE code = 'AT';
COMMIT;

-- A key of two columns. Under MATCH SIMPLE one null is enough for a row to refer to nothing; MATCH FULL wants all or none.
CREATE TABLE seat (line INT, place INT, PRIMARY KEY (line, place));
CREATE TABLE ticket (line INT, place INT, CONSTRAINT some_seat FOREIGN KEY (line, place) REFERENCES seat MATCH SIMPLE);
CREATE TABLE pass (line INT, place INT, CONSTRAINT whole_seat FOREIGN KEY (line, place) REFERENCES seat MATCH FULL);
INSERT INTO seat VALUES (1, 1);
INSERT INTO ticket VALUES (1, 1), (9, NULL), (NULL, NULL);
INSERT INTO pass VALUES (1, 1), (NULL, NULL);
INSERT INTO pass VALUES (9, NULL);
COMMIT;

-- A foreign key refers to a whole key: one column of two is none. The order of the columns doesn't matter.
CREATE TABLE queue (line INT, FOREIGN KEY (line) REFERENCES seat (line));
CREATE TABLE queue (line INT, place INT, FOREIGN KEY (place, line) REFERENCES seat (place, line));
