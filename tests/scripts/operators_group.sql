-- How operators group: each value would be another one if they grouped otherwise.
CREATE TABLE t (a INT, b INT, c INT);
INSERT INTO t VALUES (10, 4, 3);

-- signs before *, * before + and -, and all from the left
SELECT a - b - c, a - b + c, a - (b - c), a + b * t.c, a * b - c * 2, -a * b + c, 1 - -1, -(a - b) FROM t;
SELECT COUNT(*) FROM t WHERE (a + 1) * 2 = 22;
SELECT COUNT(*) FROM t WHERE ((a)) - 9 IS NULL;

-- NOT before AND, AND before OR
SELECT COUNT(*) FROM t WHERE a = 10 OR b <> 4 AND NOT c IS NOT NULL;
SELECT COUNT(*) FROM t WHERE a < 1 AND b <= 2 OR c > 2;
SELECT COUNT(*) FROM t WHERE NOT a = 1 OR b = 4;
SELECT COUNT(*) FROM t WHERE NOT a = 10 AND b = 1;
SELECT COUNT(*) FROM t WHERE ((a = 10) OR b = 4) AND c = 1;

-- EXISTS ends with its parenthesis, and its table has an alias with AS or without
SELECT COUNT(*) FROM t WHERE EXISTS (SELECT * FROM t) AND a = 1;
SELECT COUNT(*) FROM t WHERE EXISTS (SELECT * FROM t u) OR a = 1;
SELECT COUNT(*) FROM t WHERE NOT EXISTS (SELECT * FROM t AS u WHERE u.a = t.b);
SELECT x.a FROM t x WHERE EXISTS (SELECT * FROM t WHERE t.b + 6 = x.a);
SELECT x.a FROM t AS x WHERE x.a = 1;
ROLLBACK;
