-- A team has a captain, who is a player, who plays for the team. Neither row can come first, unless a constraint can wait.
CREATE TABLE team (id INT PRIMARY KEY, captain INT);
CREATE TABLE player (id INT PRIMARY KEY, team INT CONSTRAINT plays_for REFERENCES team INITIALLY DEFERRED);
ALTER TABLE team ADD CONSTRAINT led_by FOREIGN KEY (captain) REFERENCES player DEFERRABLE;

-- LED_BY is checked at once, and PLAYS_FOR waits until COMMIT. So the player comes first.
INSERT INTO team VALUES (1, 7);
INSERT INTO player VALUES (7, 1);
INSERT INTO team VALUES (1, 7);
COMMIT;

-- There is no team 3, so COMMIT is refused: it takes everything back and ends the transaction.
INSERT INTO player VALUES (8, 2), (9, 3);
INSERT INTO team VALUES (2, 8);
COMMIT;
SELECT * FROM player;

-- Who wants to know before, sets the constraint to IMMEDIATE. That is refused as long as it is violated, and the transaction goes on.
INSERT INTO player VALUES (8, 2), (9, 3);
INSERT INTO team VALUES (2, 8);
SET CONSTRAINTS plays_for IMMEDIATE;
UPDATE player SET team = 2 WHERE id = 9;
SET CONSTRAINTS plays_for IMMEDIATE;

-- From then on it is checked at once, until the transaction ends.
INSERT INTO player VALUES (10, 4);
COMMIT;

-- LED_BY is deferrable, so a transaction may let it wait: the new captain comes after the change.
START TRANSACTION;
SET CONSTRAINTS led_by DEFERRED;
UPDATE team SET captain = 11 WHERE id = 2;
INSERT INTO player VALUES (11, 2);
COMMIT;

-- In the next transaction it is immediate again; outside a transaction there is nothing to set.
UPDATE team SET captain = 12 WHERE id = 2;
SET CONSTRAINTS led_by DEFERRED;
