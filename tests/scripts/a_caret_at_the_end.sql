SELECT *
  FROM t -- no semicolon