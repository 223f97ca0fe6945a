"""Values as parameters, and the catalogue: a text that would end the statement stays a text."""
import sqlkeep

SCHEMA = (
    "CREATE TABLE author (id INT PRIMARY KEY, name VARCHAR(40) NOT NULL)",
    "CREATE TABLE book (title VARCHAR(40) PRIMARY KEY, author INT CONSTRAINT written_by REFERENCES author)",
)
BOOKS_OF = "SELECT title FROM book b WHERE EXISTS (SELECT * FROM author a WHERE a.id = b.author AND a.name = ?)"


def show_catalogue(connection):
    for table in connection.session.catalogue.tables.values():
        print(f"{table.name}:", *table.columns)


def main():
    with sqlkeep.connect() as connection:
        for statement in SCHEMA:
            connection.execute(statement)
        show_catalogue(connection)
        connection.execute("INSERT INTO author VALUES (?, ?)", (1, "Austen"))
        connection.execute("INSERT INTO book VALUES (?, ?)", ("x'); DELETE FROM author; --", 1))
        for (title,) in connection.execute(BOOKS_OF, ("Austen",)):
            print("title:", title)


if __name__ == "__main__":
    main()
