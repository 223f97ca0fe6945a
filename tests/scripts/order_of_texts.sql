-- Texts have the order of their characters' code points, whatever their bytes are in another encoding; and a length in characters.
CREATE TABLE pair (a VARCHAR(2), b VARCHAR(2));
INSERT INTO pair VALUES ('', 'a'), ('aa', 'b'), ('Z', 'a'), ('a', 'a '), ('z', 'é'), ('￿', '𐀀');
SELECT COUNT(*) FROM pair WHERE a < b;
SELECT COUNT(*) FROM pair WHERE a <= b AND a <> b AND b > a AND b >= a;
SELECT COUNT(*) FROM pair WHERE a = b OR a > b OR a >= b OR b < a OR b <= a;
SELECT COUNT(*) FROM pair WHERE a = a AND a <= a AND b >= b AND NOT a <> a;
COMMIT;

-- NULL and 1 and '1' have no order
CREATE TABLE kinds (n INT, t VARCHAR(1));
INSERT INTO kinds VALUES (1, '1'), (NULL, NULL), (-1, '');
SELECT * FROM kinds WHERE n = t;
SELECT COUNT(*) FROM kinds WHERE n = NULL OR n <> NULL OR t < NULL OR NULL = NULL;
SELECT n FROM kinds WHERE n < 1;
SELECT n FROM kinds WHERE n IS NULL AND t IS NULL;
COMMIT;

-- a text of so many characters fits VARCHAR of that length, and none that is shorter
CREATE TABLE lengths (one VARCHAR(1), two VARCHAR(2), three VARCHAR(3), four VARCHAR(4));
INSERT INTO lengths VALUES ('é', 'éé', '€€€', 'a€é😀');
INSERT INTO lengths VALUES ('', '', 'abc', NULL), (NULL, NULL, NULL, '');
INSERT INTO lengths (one) VALUES ('éé');
INSERT INTO lengths (two) VALUES ('abc');
INSERT INTO lengths (two) VALUES ('€€€');
INSERT INTO lengths (three) VALUES ('a€é😀');
INSERT INTO lengths (four) VALUES ('😀😀😀😀😀');
INSERT INTO lengths (four) VALUES (7);
SELECT * FROM lengths;
ROLLBACK;
