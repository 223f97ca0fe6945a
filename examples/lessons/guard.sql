--# Triggers: a price that never falls
--# The shop may raise a price and never lower it. Write a trigger `never_lower` that refuses an UPDATE of `price` to less, with a SIGNAL.
--? Which triggers may refuse a row before it is stored?
--! Those that run BEFORE the event FOR EACH ROW. `REFERENCING OLD AS o NEW AS n` gives them the row as it was and as it would be.
CREATE TABLE article (id INT PRIMARY KEY, price INT NOT NULL);

INSERT INTO article VALUES (1, 100), (2, 200);
UPDATE article SET price = 90 WHERE id = 1;

--@ accepts: UPDATE article SET price = 300;
--@ accepts: UPDATE article SET price = 300;
--@ refuses Signal never_lower: UPDATE article SET price = 299 WHERE id = 2;
--@ accepts: INSERT INTO article VALUES (3, 1);
