"""The way in: a database of SQLite or PostgreSQL becomes a script of this language.

What can't be said here is left out, and what is said in another way is changed; the script tells both in comments at the object.
`sqlite` reads a file, `postgresql` the catalogues of a server, `conditions` the text of a CHECK, and `script` writes and asks the engine whether each part is read.
"""
