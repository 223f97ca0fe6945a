--# Deferred constraints: teams and captains
--# Each team has a captain, who is a player; each player is in a team. Neither row can come first as long as both foreign keys are checked
--# when a statement ends.
--#
--# Change the two foreign keys so that a team and its captain can be inserted in one transaction, in either order. Name them `led_by` and
--# `plays_for`.
--? When is a constraint checked that is `INITIALLY DEFERRED`?
--! At COMMIT. `SET CONSTRAINTS name IMMEDIATE` checks it before, and loses nothing if it is refused.
CREATE TABLE team (id INT PRIMARY KEY, captain INT);
CREATE TABLE player (id INT PRIMARY KEY, team INT CONSTRAINT plays_for REFERENCES team);
ALTER TABLE team ADD CONSTRAINT led_by FOREIGN KEY (captain) REFERENCES player;

INSERT INTO team VALUES (1, 10);
INSERT INTO player VALUES (10, 1);
COMMIT;

--@ accepts: START TRANSACTION;
--@ accepts: INSERT INTO team VALUES (2, 20);
--@ accepts: INSERT INTO player VALUES (20, 2);
--@ accepts: COMMIT;
--@ accepts: INSERT INTO player VALUES (30, 3);
--@ accepts: INSERT INTO team VALUES (3, 30);
--@ accepts: COMMIT;
--@ accepts: INSERT INTO team VALUES (4, 40);
--@ refuses CommitRefused led_by: COMMIT;
--@ accepts: INSERT INTO player VALUES (50, 5);
--@ refuses CommitRefused plays_for: COMMIT;
