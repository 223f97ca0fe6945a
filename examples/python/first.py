"""The first script of the README, and what a program reads of its refused COMMIT."""
import sqlkeep

SCHEMA = """
CREATE TABLE author (name VARCHAR(20) PRIMARY KEY);
CREATE TABLE book (
    title VARCHAR(30) PRIMARY KEY,
    author VARCHAR(20) CONSTRAINT written_by REFERENCES author ON DELETE CASCADE INITIALLY DEFERRED
);
CREATE TABLE removed (title VARCHAR(30));
CREATE TRIGGER log_removed AFTER DELETE ON book REFERENCING OLD AS o FOR EACH ROW
    INSERT INTO removed VALUES (o.title);
"""


def main():
    with sqlkeep.open() as session:
        session.execute(SCHEMA)
        session.execute("INSERT INTO book VALUES ('Emma', 'Austen'), ('Persuasion', 'Austen');")
        session.execute("INSERT INTO author VALUES ('Austen');")
        session.commit()
        session.execute("DELETE FROM author WHERE name = 'Austen';")
        for row in session.query("SELECT title FROM removed;"):
            print(row)
        session.execute("INSERT INTO book VALUES ('Dracula', 'Stoker');")
        print("pending:", session.pending())
        try:
            session.commit()
        except sqlkeep.Refused as refused:
            print("refused:", refused.number, refused.name, refused.constraint, refused.row)


if __name__ == "__main__":
    main()
