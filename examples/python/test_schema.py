"""Tests of an application's schema, for pytest: which data it takes, and which constraint refuses the others."""
import pytest
import sqlkeep

SCHEMA = """
CREATE TABLE account (
    owner VARCHAR(20) PRIMARY KEY,
    balance INT NOT NULL CONSTRAINT solvent CHECK (balance >= 0) INITIALLY DEFERRED
);
CREATE TABLE entry (
    number INT PRIMARY KEY,
    owner VARCHAR(20) NOT NULL CONSTRAINT booked_for REFERENCES account ON DELETE RESTRICT
);
INSERT INTO account VALUES ('Ann', 50), ('Bob', 20);
COMMIT;
"""


@pytest.fixture
def database():
    with sqlkeep.open() as session:
        session.execute(SCHEMA)
        yield session


def transfer(database, payer, payee, amount):
    database.execute("UPDATE account SET balance = balance - ? WHERE owner = ?;", [amount, payer])
    database.execute("UPDATE account SET balance = balance + ? WHERE owner = ?;", [amount, payee])
    database.commit()


def balances(database):
    return database.query("SELECT owner, balance FROM account;")


def test_a_transfer_moves_money(database):
    transfer(database, "Ann", "Bob", 30)
    assert balances(database) == [("Ann", 20), ("Bob", 50)]


def test_nobody_pays_what_they_do_not_have(database):
    with pytest.raises(sqlkeep.Refused) as refused:
        transfer(database, "Bob", "Ann", 21)
    assert (refused.value.name, refused.value.constraint, refused.value.row) == ("CommitRefused", "SOLVENT", 2)
    assert balances(database) == [("Ann", 50), ("Bob", 20)]


def test_a_debt_may_be_paid_within_the_transaction(database):
    database.execute("UPDATE account SET balance = balance - 60 WHERE owner = 'Ann';")
    assert database.pending() == [("SOLVENT", 1)]
    database.execute("UPDATE account SET balance = balance + 10 WHERE owner = 'Ann';")
    assert database.pending() == []
    database.commit()


def test_an_account_with_entries_stays(database):
    database.execute("INSERT INTO entry VALUES (1, 'Ann');")
    with pytest.raises(sqlkeep.Refused) as refused:
        database.execute("DELETE FROM account WHERE owner = 'Ann';")
    assert (refused.value.number, refused.value.constraint) == (12, "BOOKED_FOR")


def test_an_entry_is_of_an_account(database):
    with pytest.raises(sqlkeep.Refused) as refused:
        database.execute("INSERT INTO entry VALUES (1, 'Cid');")
    assert (refused.value.name, refused.value.constraint) == ("Violation", "BOOKED_FOR")


def test_a_value_stays_a_value(database):
    assert database.execute("UPDATE account SET balance = 0 WHERE owner = ?;", ["Ann' OR owner <> '"]) == [0]
    assert balances(database) == [("Ann", 50), ("Bob", 20)]


def test_a_text_that_is_no_statement(database):
    with pytest.raises(sqlkeep.NoStatement) as fault:
        database.execute("COMMIT; DELETE account;")
    assert fault.value.at == 8
