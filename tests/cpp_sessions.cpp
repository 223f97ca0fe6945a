// The header for C++: values, refusals and transactions; see README.md beside this file. The program ends with 0 where all is as it should be.
#include "sqlkeep.hpp"

#include <cstdlib>
#include <iostream>
#include <limits>

#define WANT(condition) do { if (!(condition)) { std::cerr << "line " << __LINE__ << ": " #condition "\n"; std::exit(1); } } while (false)

template <typename Error, typename Call> Error thrown(Call call) {
    try {
        call();
    } catch (const Error &error) {
        return error;
    } catch (const std::exception &other) {
        std::cerr << "another exception: " << other.what() << '\n';
        std::exit(1);
    }
    std::cerr << "nothing was thrown\n";
    std::exit(1);
}

static keep::session books() {
    keep::session session;
    session.execute_batch(
        "CREATE TABLE author (name VARCHAR(20) PRIMARY KEY, born INT);"
        "CREATE TABLE book (title VARCHAR(20), author VARCHAR(20) CONSTRAINT written_by REFERENCES author ON DELETE CASCADE INITIALLY DEFERRED,"
        " pages INT CONSTRAINT some CHECK (pages > 0));"
        "INSERT INTO author VALUES ('Austen', 1775); COMMIT;");
    return session;
}

static void values() {
    keep::session session;
    session.execute_batch("CREATE TABLE t (a INT, b VARCHAR(60)); COMMIT;");
    const std::string texts[] = {"'; DROP TABLE t; --", "?", "", "it''s", "x'); INSERT INTO t VALUES (9, 'y", "\xc3\xa9", "a\nb"};
    int at = 0;
    for (const std::string &text : texts) {
        WANT(session.execute("INSERT INTO t VALUES (?, ?)", at, text) == 1);
        const keep::rows found = session.query("SELECT b FROM t WHERE a = ? AND b = ?;", at++, text);
        WANT(found.size() == 1 && found[0].get<std::string>(0) == text);
    }
    for (const std::int64_t number : {std::numeric_limits<std::int64_t>::min(), std::numeric_limits<std::int64_t>::max(), std::int64_t{-1}}) {
        session.execute("DELETE FROM t");
        session.execute("INSERT INTO t VALUES (?, ?)", number, nullptr);
        const keep::rows found = session.query("SELECT * FROM t");
        WANT(found[0].get<std::int64_t>(0) == number && !found[0].get<std::optional<std::string>>(1));
        WANT((found.columns == std::vector<std::string>{"A", "B"}));
        WANT(found[0][1] == keep::value());
    }
    session.execute("UPDATE t SET a = ?, b = ?", std::optional<int>(300), keep::value("x"));
    const keep::rows found = session.query("SELECT a, b, a + 1 FROM t");
    WANT(found[0].get<int>(0) == 300 && found[0].get<keep::value>(1) == keep::value("x") && found.columns[2].empty());
    thrown<keep::usage_error>([&] { found[0].get<std::int8_t>(0); });
    thrown<keep::usage_error>([&] { found[0].get<int>(1); });
    thrown<keep::usage_error>([&] { found[0].get<std::string>(0); });
    thrown<keep::usage_error>([&] { found[0].get<int>(3); });
}

static void refusals() {
    keep::session session = books();
    auto refused = thrown<keep::refused>([&] { session.execute("INSERT INTO book VALUES ('Emma', 'Austen', 0)"); });
    WANT(refused.why().cause == SQLKEEP_CAUSE_VIOLATION && refused.why().constraint == "SOME" && refused.why().row == 2U);
    WANT(refused.what() == std::string("Violation: SOME: BOOK row 2 ('Emma', 'Austen', 0) makes PAGES > 0 false (0 > 0)"));
    refused = thrown<keep::refused>([&] { session.execute("INSERT INTO boook VALUES (1)"); });
    WANT(refused.what() == std::string("Unknown: table BOOOK isn't there"));
    WANT(session.message() == "refused: Unknown: table BOOOK isn't there" && session.places().size() == 1 && session.places()[0].end == 30);
    session.execute("INSERT INTO book VALUES (?, ?, 1), (?, ?, 2)", "Dracula", "Stoker", "Frankenstein", "Shelley");
    const std::vector<keep::violation> pending = session.pending();
    WANT(pending.size() == 2 && pending[1].constraint == "WRITTEN_BY" && pending[1].row == 3);
    WANT(pending[1].key.size() == 1 && pending[1].key[0] == keep::value("Shelley") && !pending[1].other);
    refused = thrown<keep::refused>([&] { session.commit(); });
    WANT(refused.why().cause == SQLKEEP_CAUSE_COMMIT_REFUSED && refused.why().reasons.size() == 2 && !session.in_transaction());
    session.execute("INSERT INTO book VALUES ('Dracula', 'Stoker', 1)");
    refused = thrown<keep::refused>([&] { session.execute(" -- now\n commit;"); });
    WANT(refused.why().reasons.size() == 1 && !session.in_transaction());
    refused = thrown<keep::refused>([&] { session.execute_batch("INSERT INTO author VALUES ('Austen', 1); COMMIT;"); });
    WANT(refused.why().statement == 0);
    session.rollback();
    session.execute_batch("CREATE TRIGGER kept BEFORE DELETE ON author SIGNAL 'authors stay'; COMMIT;");
    refused = thrown<keep::refused>([&] { session.execute("DELETE FROM author"); });
    WANT(refused.what() == std::string("Signal: authors stay") && refused.why().trigger == "KEPT");
}

// What a refusal of the second text says, after the first.
static std::string told(const char *setting, const char *text) {
    keep::session session;
    session.execute_batch(setting);
    return thrown<keep::refused>([&] { session.execute(text); }).what();
}

static void reasons() {
    WANT(told("", "CREATE TABLE t (a INT REFERENCES t)") == "SchemaFault: constraint T_C1 refers to T, which has no PRIMARY KEY");
    WANT(told("CREATE TABLE t (a INT, a2 INT);", "INSERT INTO t VALUES (1)") == "WrongShape: tuple 1 has 1 value for 2 columns of T");
    WANT(told("CREATE TABLE t (a INT);", "INSERT INTO t VALUES ('a: b')") == "WrongShape: 'a: b' is a text, and column A of T is an INTEGER");
    WANT(told("", "CREATE TABLE t (a VARCHAR(4097))") == "Limit: column A is a VARCHAR(4097), and 4096 is the most");
    WANT(told("", "CREATE TABLE t (a INT, b INT, a INT)") == "Duplicate: column A comes twice");
    WANT(told("CREATE TABLE t (a INT CONSTRAINT c NOT NULL); START TRANSACTION;", "SET CONSTRAINTS c DEFERRED") == "NotDeferrable: constraint C is NOT DEFERRABLE");
    WANT(told("START TRANSACTION; SAVEPOINT a;", "RELEASE SAVEPOINT s") == "UnknownSavepoint: savepoints that stand: A; savepoint S isn't there");
    WANT(told("CREATE TABLE t (a INT);", "INSERT INTO t VALUES (9223372036854775807 + 1)") == "NumberOutOfRange: A of T: 9223372036854775807 + 1 is out of range");
    WANT(told("CREATE TABLE t (a INT); CREATE TRIGGER again AFTER INSERT ON t INSERT INTO t VALUES (1);", "INSERT INTO t VALUES (0)")
        == "DepthLimit: depth 17, and 16 is the most: AGAIN statement 1, AGAIN statement 1, AGAIN statement 1, .., AGAIN statement 1");
    WANT(told("CREATE TABLE p (k INT PRIMARY KEY); CREATE TABLE c (k INT CONSTRAINT f REFERENCES p ON DELETE CASCADE);"
              "CREATE TABLE d (a INT CONSTRAINT few CHECK (a < 1)); CREATE TRIGGER r AFTER DELETE ON c INSERT INTO d VALUES (1);"
              "INSERT INTO p VALUES (7); INSERT INTO c VALUES (7); COMMIT;", "DELETE FROM p") == "Violation: FEW: D row 3 (1) makes A < 1 false (1 < 1)");
}

static void forgeries() {
    const std::string forged = "x\n  T_C9: forged reason\n1 ok\n  it's isn't there\n";
    const std::string written = "'x\n  T_C9: forged reason\n1 ok\n  it''s isn''t there\n'";
    keep::session session;
    session.execute_batch("CREATE TABLE t (a VARCHAR(300) PRIMARY KEY, b INT);");
    session.execute("INSERT INTO t VALUES (?, 1)", forged);
    auto refused = thrown<keep::refused>([&] { session.execute("INSERT INTO t VALUES (?, 2)", forged); });
    WANT(refused.why().reasons == std::vector{"T_C1 (PRIMARY KEY (A)): T row 1 (" + written + ", 1) has the key of row 2 (" + written + ", 2)"});
    refused = thrown<keep::refused>([&] { session.execute("UPDATE t SET b = ?", forged); });
    WANT(refused.why().reasons == std::vector{written + " is a text, and column B of T is an INTEGER"});
    session.explain(true);
    session.execute("DELETE FROM t");
    WANT(session.account() == std::vector{"  delete T row 1 (" + written + ", 1)"});
    session.execute("INSERT INTO t VALUES (?, 1)", forged);
    session.query("SELECT * FROM t");
    WANT(session.account() == std::vector<std::string>{"  columns A, B"});
    session.execute_batch("COMMIT; CREATE TRIGGER r BEFORE DELETE ON t SIGNAL " + written + ";");
    refused = thrown<keep::refused>([&] { session.execute("DELETE FROM t"); });
    WANT(refused.why().signal == forged && refused.why().reasons.empty() && session.account() == std::vector<std::string>{"  trigger R"});
}

static void long_names() {
    const std::string table(128, 'T');
    keep::session session;
    session.execute_batch("CREATE TABLE " + table + " (a INT UNIQUE INITIALLY DEFERRED); INSERT INTO " + table + " VALUES (1), (1);");
    const std::vector<keep::violation> pending = session.pending();
    WANT(pending.size() == 2 && pending[1].constraint == table + "_C1" && pending[1].row == 2 && pending[1].other == 1U);
}

static void dumps() {
    keep::session session = books();
    session.execute("INSERT INTO book VALUES ('Emma', 'Austen', 7)");
    thrown<keep::usage_error>([&] { session.dump(); });
    session.commit();
    WANT(session.condition(2) == "PAGES > 0" && !session.condition(0) && !session.condition(9));
    const std::vector<std::string> scripts = session.dump();
    keep::session copy;
    for (const std::string &script : scripts) copy.execute_batch(script);
    WANT(copy.dump() == scripts && copy.query("SELECT pages FROM book")[0].get<int>(0) == 7);
}

static void usage() {
    keep::session session;
    auto fault = thrown<keep::syntax_error>([&] { session.execute_batch("COMMIT;\n '\xc3\xa9' COMIT;"); });
    WANT(fault.byte() == 9 && fault.line() == 2 && fault.column() == 2);
    thrown<keep::usage_error>([&] { session.execute("COMMIT; COMMIT;"); });
    thrown<keep::usage_error>([&] { session.execute("SELECT a FROM t WHERE a = ?"); });
    thrown<keep::usage_error>([&] { session.execute("SELECT # FROM t WHERE a = ?", 1); });
    fault = thrown<keep::syntax_error>([&] { session.execute("SELECT # FROM t"); });
    thrown<keep::usage_error>([&] { session.execute("SELECT ? FROM t", "\xff"); });
    const char *missing = nullptr;
    thrown<keep::usage_error>([&] { session.execute("SELECT ? FROM t", missing); });
    thrown<keep::usage_error>([&] { session.execute("SELECT ? FROM t", std::optional(missing)); });
    thrown<keep::usage_error>([] { keep::session(65, 1); });
    session.execute("CREATE TABLE t (a INT)");
    thrown<keep::usage_error>([&] { session.execute("SELECT a FROM t"); });
    thrown<keep::usage_error>([&] { session.query("DELETE FROM t"); });
    WANT(session.run("CREATE TABLE t (a INT); COMIT;") == "1 ok\n2 fault 24\n");
}

static void transactions() {
    keep::session session = books();
    {
        const keep::transaction open(session);
        session.execute("INSERT INTO book VALUES ('Emma', 'Austen', 1)");
    }
    WANT(session.query("SELECT title FROM book").empty());
    {
        keep::transaction open(session);
        session.execute("INSERT INTO book VALUES ('Emma', 'Austen', 1)");
        open.commit();
    }
    WANT(session.query("SELECT title FROM book").size() == 1);
    {
        keep::transaction open(session);
        session.execute("DELETE FROM book");
        thrown<keep::usage_error>([&] { keep::transaction(session).commit(); });
        WANT(session.query("SELECT title FROM book").empty() && session.in_transaction());
    }
    WANT(session.query("SELECT title FROM book").size() == 1);
    {
        keep::transaction open(session);
        session.execute("INSERT INTO book VALUES ('Dracula', 'Stoker', 1)");
        thrown<keep::refused>([&] { open.commit(); });
        thrown<keep::usage_error>([&] { open.commit(); });
        keep::transaction(session).commit();
    }
    session.rollback();
    session.explain(true);
    session.execute_batch("START TRANSACTION; SAVEPOINT s;");
    WANT(session.execute("DELETE FROM author") == 1 && session.work().changes == 2);
    WANT(session.account().size() == 3 && session.account()[1] == "  WRITTEN_BY CASCADE on BOOK row 2");
    session.rollback_to("s");
    WANT(session.work().undone == 2);
    const auto refused = thrown<keep::refused>([&] { session.rollback_to("nosuch"); });
    WANT(refused.why().cause == SQLKEEP_CAUSE_UNKNOWN_SAVEPOINT);
    keep::session other = std::move(session);
    WANT(other.in_transaction());
    thrown<keep::usage_error>([&] { session.execute("COMMIT"); });
}

int main() {
    values();
    refusals();
    reasons();
    forgeries();
    long_names();
    dumps();
    usage();
    transactions();
    return 0;
}
