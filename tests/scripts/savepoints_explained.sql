-- What an account tells of RELEASE and ROLLBACK TO: the savepoints that stand where one isn't there, the earliest first.
CREATE TABLE book (title VARCHAR(20));
ROLLBACK TO SAVEPOINT a;
START TRANSACTION;
ROLLBACK TO SAVEPOINT a;
RELEASE SAVEPOINT a;
SAVEPOINT draft;
INSERT INTO book VALUES ('Emma');
SAVEPOINT proof;
INSERT INTO book VALUES ('Dracula');
RELEASE SAVEPOINT prof;
ROLLBACK TO SAVEPOINT drafts;
SAVEPOINT print;

-- a used name is that of the latest
SAVEPOINT draft;
ROLLBACK TO SAVEPOINT prints;

-- a savepoint that is there is told nothing
ROLLBACK TO SAVEPOINT print;
RELEASE SAVEPOINT draft;
RELEASE SAVEPOINT proof;
ROLLBACK TO SAVEPOINT proof;

-- one savepoint
SAVEPOINT z;
RELEASE SAVEPOINT proof;
COMMIT;
RELEASE SAVEPOINT z;
