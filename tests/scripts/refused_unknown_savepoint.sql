-- 7 UnknownSavepoint: ROLLBACK TO and RELEASE name a savepoint that stands.
START TRANSACTION;
ROLLBACK TO SAVEPOINT a;
RELEASE SAVEPOINT a;

-- ROLLBACK TO leaves the savepoint that it names, and takes away the later ones
SAVEPOINT a;
SAVEPOINT b;
SAVEPOINT c;
ROLLBACK TO SAVEPOINT b;
RELEASE SAVEPOINT c;
ROLLBACK WORK TO SAVEPOINT B;

-- RELEASE takes away the savepoint that it names too
RELEASE SAVEPOINT a;
ROLLBACK TO SAVEPOINT b;
ROLLBACK TO SAVEPOINT a;

-- a name used again: the older savepoint goes, those between stay
SAVEPOINT a;
SAVEPOINT b;
SAVEPOINT a;
RELEASE SAVEPOINT b;
ROLLBACK TO SAVEPOINT a;

-- no savepoint outlives its transaction
SAVEPOINT a;
COMMIT;
START TRANSACTION;
ROLLBACK TO SAVEPOINT a;
ROLLBACK;
