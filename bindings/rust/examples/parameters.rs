//! Values as parameters, and the catalogue: a text that would end the statement stays a text.
const SCHEMA: &str = "
    CREATE TABLE author (id INT PRIMARY KEY, name VARCHAR(40) NOT NULL);
    CREATE TABLE book (title VARCHAR(40) PRIMARY KEY, author INT CONSTRAINT written_by REFERENCES author);";
const BOOKS_OF: &str = "SELECT title FROM book b WHERE EXISTS (SELECT * FROM author a WHERE a.id = b.author AND a.name = ?);";

fn show_catalogue(session: &mut sqlkeep::Session) {
    for table in session.catalogue().tables {
        print!("{}:", table.name);
        for column in table.columns {
            match column.longest {
                Some(longest) => print!(" {} VARCHAR({longest})", column.name),
                None => print!(" {} INTEGER", column.name),
            }
        }
        println!();
    }
}

fn main() -> sqlkeep::Result<()> {
    let mut session = sqlkeep::Session::open()?;
    session.execute_batch(SCHEMA)?;
    show_catalogue(&mut session);
    session.execute("INSERT INTO author VALUES (?, ?);", (1, "Austen"))?;
    session.execute("INSERT INTO book VALUES (?, ?);", ("x'); DELETE FROM author; --", 1))?;
    for (title,) in session.query::<(String,)>(BOOKS_OF, ("Austen",))? {
        println!("title: {title}");
    }
    Ok(())
}
