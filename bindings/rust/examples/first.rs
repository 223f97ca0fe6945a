//! A refused COMMIT, with the row and the key that it is about.
fn main() -> sqlkeep::Result<()> {
    let mut session = sqlkeep::Session::open()?;
    session.execute_batch(
        "CREATE TABLE author (name VARCHAR(20) PRIMARY KEY);
         CREATE TABLE book (title VARCHAR(20), author VARCHAR(20)
             CONSTRAINT written_by REFERENCES author INITIALLY DEFERRED);",
    )?;
    session.execute("INSERT INTO author VALUES (?);", ("Austen",))?;
    session.execute("INSERT INTO book VALUES (?, ?);", ("Emma", "Austen"))?;
    session.commit()?;
    session.execute("INSERT INTO book VALUES (?, ?);", ("Dracula", "Stoker"))?;
    if let Err(error) = session.commit() {
        println!("{error}");
    }
    for (title, author) in session.query::<(String, String)>("SELECT title, author FROM book;", ())? {
        println!("{title} by {author}");
    }
    Ok(())
}
