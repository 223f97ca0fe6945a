-- Texts: in quotes, compared by code points, without padding.
CREATE TABLE t (a VARCHAR(5), b CHARACTER VARYING(5), c CHAR VARYING(5));
INSERT INTO t VALUES ('b', 'it''s', ''), ('B', '''', '--;'), ('a', NULL, 'é'), ('ab', ' ', 'z');
SELECT * FROM t;

-- capitals are before small letters, a beginning before what goes on, and é after z
SELECT a FROM t WHERE a < 'ab';
SELECT c FROM t WHERE c > 'z';
SELECT a FROM t WHERE a = 'a ';
SELECT a FROM t WHERE c = '';
SELECT a FROM t WHERE b <> 'it''s';
COMMIT;
