-- 16 DepthLimit: triggers' statements are nested deeper than 16. A statement of the script is at depth 1.
CREATE TABLE t (a INT);
CREATE TRIGGER more AFTER INSERT ON t REFERENCING NEW AS n FOR EACH ROW WHEN (n.a > 1) INSERT INTO t VALUES (n.a - 1);
INSERT INTO t VALUES (16);
SELECT COUNT(*) FROM t;
INSERT INTO t VALUES (17);
SELECT COUNT(*) FROM t;
ROLLBACK;

-- the trigger whose statement would be too deep is told: PONG inserts at odd depths, and at even ones
CREATE TABLE u (a INT);
CREATE TABLE v (a INT);
CREATE TRIGGER ping AFTER INSERT ON u INSERT INTO v VALUES (1);
CREATE TRIGGER pong AFTER INSERT ON v INSERT INTO u VALUES (1);
INSERT INTO u VALUES (0);
INSERT INTO v VALUES (0);
