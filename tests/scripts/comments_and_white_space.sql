-- a comment; with a semicolon and a ' quote
CREATE	TABLE
t(a INT--, b INT
,CHECK(a>0));
INSERT INTO t VALUES(1);SELECT*FROM t;
COMMIT -- a carriage return; ROLLBACK; is in the comment
;
  ROLLBACK	;--the end of the script ends a comment too