// sqlkeep for C++17 and later: a session that closes itself, values, and exceptions, over sqlkeep.h.
//
//     keep::session session;
//     session.execute_batch("CREATE TABLE book (id INT PRIMARY KEY, title VARCHAR(40));");
//     session.execute("INSERT INTO book VALUES (?, ?);", 1, "Emma");
//     session.commit();
//     for (const keep::row &row : session.query("SELECT title FROM book WHERE id = ?;", 1)) {
//         std::cout << row.get<std::string>(0) << '\n';
//     }
//
// A session is used on the thread that opened it. Whatever fails throws a keep::error; then nothing was changed, but for a refused
// COMMIT, which rolls the transaction back.
#ifndef SQLKEEP_HPP
#define SQLKEEP_HPP

#include "sqlkeep.h"

#include <algorithm>
#include <array>
#include <cstdint>
#include <optional>
#include <stdexcept>
#include <string>
#include <string_view>
#include <type_traits>
#include <utility>
#include <variant>
#include <vector>

namespace keep {

// NULL, an INTEGER or a VARCHAR.
using value = std::variant<std::monostate, std::int64_t, std::string>;

// The base of all that is thrown.
class error : public std::runtime_error {
public:
    using std::runtime_error::runtime_error;
};

// A call can't be made: of a statement count, a parameter count, limits, a type.
class usage_error : public error {
public:
    using error::error;
};

// Memory was refused.
class no_memory : public error {
public:
    no_memory() : error("memory was refused") {}
};

// A part of a text is no statement. Places are those of the text with its question marks.
class syntax_error : public error {
public:
    // A byte of the text, from 0; its line and its column in characters, from 1.
    struct place {
        std::size_t byte, line, column;
    };

    syntax_error(place statement, place word, bool is_cut)
        : error("no statement at " + told(statement) + (is_cut ? ": the text ends within it" : ": wrong word at " + told(word))),
          statement_(statement), word_(word), is_cut_(is_cut) {}
    // Where the statement begins that isn't one.
    std::size_t byte() const noexcept { return statement_.byte; }
    std::size_t line() const noexcept { return statement_.line; }
    std::size_t column() const noexcept { return statement_.column; }
    // Where the first word of it is that can't stand where it does; the text's end where more should follow.
    place word() const noexcept { return word_; }
    // Whether the text ends within the statement.
    bool is_cut() const noexcept { return is_cut_; }

private:
    static std::string told(place it) { return "line " + std::to_string(it.line) + ", column " + std::to_string(it.column); }

    place statement_, word_;
    bool is_cut_;
};

// Why a statement was refused, and by what.
struct refusal {
    // One of enum sqlkeep_cause_number, and its name.
    std::uint32_t cause = 0;
    std::string cause_name;
    // The constraint, the trigger that the cause speaks of or else the innermost that was running, the text of the SIGNAL, the row.
    std::optional<std::string> constraint, trigger, signal;
    std::optional<std::uint64_t> row;
    // What the refusal is about, a line for each violation.
    std::vector<std::string> reasons;
    // The place of the statement in its text, from 0.
    std::size_t statement = 0;
};

// A statement was refused.
class refused : public error {
public:
    explicit refused(refusal why) : error(words(why)), why_(std::move(why)) {}
    const refusal &why() const noexcept { return why_; }

private:
    static std::string words(const refusal &why) {
        std::string text = why.cause_name;
        const char *before = ": ";
        for (const std::string &reason : why.reasons) {
            text += before + reason;
            before = "; ";
        }
        if (why.reasons.empty() && why.signal) {
            text += ": " + *why.signal;
        } else if (why.reasons.empty()) {
            if (why.constraint) text += " " + *why.constraint;
            if (why.trigger) text += " " + *why.trigger;
            if (why.row) text += " row " + std::to_string(*why.row);
        }
        return why.statement > 0 ? text + " (statement " + std::to_string(why.statement + 1) + ")" : text;
    }
    refusal why_;
};

namespace detail {

template <typename T> struct is_optional : std::false_type {};
template <typename T> struct is_optional<std::optional<T>> : std::true_type {};

template <typename T> T from_value(const value &from, std::size_t column) {
    const std::string place = "the value in column " + std::to_string(column);
    if constexpr (std::is_same_v<T, value>) {
        return from;
    } else if constexpr (is_optional<T>::value) {
        if (std::holds_alternative<std::monostate>(from)) return std::nullopt;
        return from_value<typename T::value_type>(from, column);
    } else if constexpr (std::is_integral_v<T>) {
        const std::int64_t *integer = std::get_if<std::int64_t>(&from);
        if (integer == nullptr) throw usage_error(place + " is no integer");
        const T narrow = static_cast<T>(*integer);
        if (static_cast<std::int64_t>(narrow) != *integer || (narrow < T{}) != (*integer < 0)) throw usage_error(place + " is out of range");
        return narrow;
    } else {
        static_assert(std::is_same_v<T, std::string>, "a value is an integer, a std::string, a std::optional of one, or a keep::value");
        const std::string *text = std::get_if<std::string>(&from);
        if (text == nullptr) throw usage_error(place + " is no text");
        return *text;
    }
}

// A whole text, part by part; none where the call answers that there is none.
template <typename Call> std::optional<std::string> copied(Call call) {
    std::string text;
    std::array<std::uint8_t, 4096> part;
    std::size_t count = part.size();
    while (count == part.size()) {
        if (call(text.size(), part.data(), part.size(), &count) != SQLKEEP_OK) return std::nullopt;
        text.append(part.begin(), part.begin() + static_cast<std::ptrdiff_t>(count));
    }
    return text;
}

inline const std::uint8_t *bytes(std::string_view text) {
    // A pointer has to lead to something, also where there are no bytes.
    return reinterpret_cast<const std::uint8_t *>(text.empty() ? "" : text.data());
}

inline void check(std::uint32_t status) {
    switch (status) {
    case SQLKEEP_OK: return;
    case SQLKEEP_LIMITS: throw usage_error("the limits of a session are a depth of 1 to 64, and 1 to 65536 changes");
    case SQLKEEP_NOT_UTF8: throw usage_error("a text isn't UTF-8");
    case SQLKEEP_TOO_LONG: throw usage_error("the script is longer than 1048576 bytes");
    case SQLKEEP_NO_MEMORY: throw no_memory();
    case SQLKEEP_WRONG_COUNT: throw usage_error("the text has another number of question marks than there are values");
    case SQLKEEP_NO_TEMPLATE: throw usage_error("the text has a character that begins no token, or a text without its end");
    case SQLKEEP_IN_TRANSACTION: throw usage_error("a transaction is open");
    case SQLKEEP_NOT_RESTORED: throw usage_error("what was written doesn't make the same again");
    default: throw usage_error("the session was moved from");
    }
}

inline syntax_error::place place_of(std::string_view text, std::size_t byte) {
    const std::string_view before = text.substr(0, byte);
    const std::size_t start = before.rfind('\n') + 1;
    const auto begins = [](char c) { return (static_cast<unsigned char>(c) & 0xC0U) != 0x80U; };
    const auto lines = std::count(before.begin(), before.end(), '\n');
    const auto column = std::count_if(before.begin() + static_cast<std::ptrdiff_t>(start), before.end(), begins);
    return {byte, static_cast<std::size_t>(lines) + 1, static_cast<std::size_t>(column) + 1};
}

inline bool begins(std::string_view text, std::string_view with) { return text.substr(0, with.size()) == with; }

// The lines of what the library writes of a statement. A text stands between quotes, with each of its quotes doubled, so a line feed
// between quotes is the text's own. The one other quote is that of "isn't there"; before a text no small letter stands.
inline std::vector<std::string> lines(std::string_view text) {
    std::vector<std::string> found;
    std::size_t from = 0;
    bool is_in_text = false;
    for (std::size_t at = 0; at < text.size(); at++) {
        const bool is_of_word = !is_in_text && at >= 3 && text.substr(at - 3, 3) == "isn";
        if (text[at] == '\'' && !is_of_word) {
            is_in_text = !is_in_text;
        } else if (text[at] == '\n' && !is_in_text) {
            found.emplace_back(text.substr(from, at - from));
            from = at + 1;
        }
    }
    return found;
}

// Whether a line of an account, without its indent, tells what happened, and not what the refusal is about.
inline bool is_event(std::string_view line) {
    for (const char *word : {"insert ", "update ", "delete ", "trigger ", "statement ", "saw "}) {
        if (begins(line, word)) return true;
    }
    const std::string_view rest = line.substr(std::min(line.find(' '), line.size()));
    return begins(rest, " CASCADE on ") || begins(rest, " SET NULL on ") || begins(rest, " SET DEFAULT on ");
}

// Whether a statement is refused for its text, so that its account has no other lines than the reason.
inline bool is_of_text(std::uint32_t cause) {
    return cause <= SQLKEEP_CAUSE_SCHEMA_FAULT || (cause >= SQLKEEP_CAUSE_UNKNOWN_SAVEPOINT && cause <= SQLKEEP_CAUSE_WRONG_SHAPE) || cause == SQLKEEP_CAUSE_LIMIT;
}

} // namespace detail

// A row of a query.
class row {
public:
    explicit row(std::vector<value> values) : values_(std::move(values)) {}
    std::size_t size() const noexcept { return values_.size(); }
    const value &operator[](std::size_t column) const { return values_.at(column); }
    // The value in a column as an integer type, a std::string, a std::optional of one of these, or a keep::value.
    // usage_error: there is no such column, or the value can't be that.
    template <typename T> T get(std::size_t column) const {
        if (column >= values_.size()) throw usage_error("there is no column " + std::to_string(column));
        return detail::from_value<T>(values_[column], column);
    }

private:
    std::vector<value> values_;
};

// The rows of a query, copied, with the names of its columns; one that is an expression has an empty name.
struct rows : std::vector<row> {
    std::vector<std::string> columns;
};

// What the last statement did.
struct work {
    std::uint64_t changes = 0, undone = 0, lookups = 0;
};

// A row that violates a deferred constraint.
struct violation {
    std::string constraint;
    std::uint64_t row = 0;
    // The values of the row in the columns of the constraint; none of a CHECK.
    std::vector<value> key;
    // The other row with this key, of a key that two rows have.
    std::optional<std::uint64_t> other;
};

// Where a statement is in its text: bytes of it, from 0.
struct span {
    std::size_t begin = 0, end = 0;
};

// A database in memory with its transaction.
class session {
public:
    // Triggers may nest `depth` deep, 1 to 64, and a statement may make `changes` row changes, 1 to 65,536.
    explicit session(std::uint8_t depth = 16, std::uint32_t changes = 65536) { detail::check(sqlkeep_open(&handle_, depth, changes)); }
    session(session &&other) noexcept : handle_(std::exchange(other.handle_, ::sqlkeep SQLKEEP_EMPTY)), explained_(other.explained_) {}
    session &operator=(session &&other) noexcept {
        std::swap(handle_, other.handle_);
        std::swap(explained_, other.explained_);
        return *this;
    }
    session(const session &) = delete;
    session &operator=(const session &) = delete;
    ~session() { sqlkeep_close(&handle_); }

    // Executes one statement with these values for its question marks, and says how many rows it inserted, updated or deleted. A
    // semicolon at its end may be left out.
    template <typename... Values> std::uint64_t execute(std::string_view statement, const Values &...values) {
        const sqlkeep_outcome outcome = execute_one(statement, values...);
        if (outcome.kind == SQLKEEP_ROWS) throw usage_error("the statement gives rows: ask for them by query");
        return outcome.count;
    }

    // Executes a query, and gives its rows.
    template <typename... Values> rows query(std::string_view statement, const Values &...values) {
        const sqlkeep_outcome outcome = execute_one(statement, values...);
        if (outcome.kind != SQLKEEP_ROWS) throw usage_error("rows were wanted, and the statement gives none");
        return all_rows(static_cast<std::size_t>(outcome.count));
    }

    // Executes all statements of a text, up to the first that is refused; none where a part of the text is no statement.
    void execute_batch(std::string_view text) {
        const std::size_t count = read_plain(text);
        const asking account(*this, true);
        for (std::size_t at = 0; at < count; at++) {
            execute_at(at);
        }
    }

    // Commits. refused: rows violate a constraint; all of them are its reasons, and the transaction is rolled back.
    void commit() {
        const asking account(*this, true);
        sqlkeep_outcome outcome;
        detail::check(sqlkeep_commit(&handle_, &outcome));
        if (outcome.kind == SQLKEEP_REFUSED) throw refused(why(outcome, 0));
    }

    void rollback() { detail::check(sqlkeep_rollback(&handle_)); }

    // Rolls back to a savepoint, which stays. The name is folded to upper case.
    void rollback_to(std::string name) {
        for (char &c : name) {
            if (c >= 'a' && c <= 'z') c = static_cast<char>(c - 'a' + 'A');
        }
        sqlkeep_outcome outcome;
        detail::check(sqlkeep_rollback_to(&handle_, detail::bytes(name), name.size(), &outcome));
        if (outcome.kind == SQLKEEP_REFUSED) throw refused(why(outcome, 0));
    }

    bool in_transaction() {
        bool is_open = false;
        detail::check(sqlkeep_in_transaction(&handle_, &is_open));
        return is_open;
    }

    keep::work work() {
        sqlkeep_done done;
        detail::check(sqlkeep_work(&handle_, &done));
        return {done.changes, done.undone, done.lookups};
    }

    // The rows that violate deferred constraints now: what COMMIT would be refused for, in that order.
    std::vector<violation> pending() {
        std::size_t count = 0;
        detail::check(sqlkeep_pending(&handle_, &count));
        std::vector<violation> found(count);
        for (std::size_t at = 0; at < count; at++) {
            complete(found[at], at);
        }
        return found;
    }

    // Where the statements of the text that was read last are in it.
    std::vector<span> places() {
        std::vector<span> found;
        sqlkeep_span place;
        std::uint32_t status;
        while ((status = sqlkeep_statement_place(&handle_, found.size(), &place)) == SQLKEEP_OK) {
            found.push_back({static_cast<std::size_t>(place.begin), static_cast<std::size_t>(place.end)});
        }
        if (status != SQLKEEP_NOTHING) detail::check(status);
        return found;
    }

    // The last outcome in words, on one line; it is to be called before the next statement.
    std::string message() {
        return detail::copied([&](auto... where) {
            const std::uint32_t status = sqlkeep_message(&handle_, where...);
            detail::check(status);
            return status;
        }).value_or("");
    }

    // The condition of a CHECK as SQL text, by the place of the constraint in the catalogue; none of another constraint.
    std::optional<std::string> condition(std::size_t constraint) {
        return detail::copied([&](auto... where) {
            const std::uint32_t status = sqlkeep_constraint_condition(&handle_, constraint, where...);
            if (status != SQLKEEP_NOTHING) detail::check(status);
            return status;
        });
    }

    // The database as scripts that make it again, to be executed one after another in a new session; each ends with a COMMIT or outside a
    // transaction. usage_error: a transaction is open, or the scripts, which are run in a database of their own, don't make this one again.
    std::vector<std::string> dump() {
        std::size_t count = 0;
        detail::check(sqlkeep_dump(&handle_, &count));
        std::vector<std::string> scripts;
        for (std::size_t at = 0; at < count; at++) {
            scripts.push_back(detail::copied([&](auto... where) { return sqlkeep_dump_script(&handle_, at, where...); }).value_or(""));
        }
        return scripts;
    }

    // From now on the account of each statement is kept for account(), or isn't.
    void explain(bool asked) {
        explained_ = asked;
        detail::check(sqlkeep_explain(&handle_, asked ? 1 : 0));
    }

    // The account of the last statement, line by line; empty where none was asked for. A text with a line feed stays in its line.
    std::vector<std::string> account() {
        detail::check(sqlkeep_lines(&handle_, 1));
        std::vector<std::string> lines = detail::lines(transcript());
        lines.erase(lines.begin());
        lines.erase(std::remove_if(lines.begin(), lines.end(), [](const std::string &line) { return !detail::begins(line, "  "); }), lines.end());
        return lines;
    }

    // Runs a whole script in a new database of its own, as the program does, and gives what the program writes.
    std::string run(std::string_view script) {
        sqlkeep_summary summary;
        detail::check(sqlkeep_run(&handle_, detail::bytes(script), script.size(), &summary));
        return transcript();
    }

    // The handle, for the functions of sqlkeep.h.
    ::sqlkeep *handle() noexcept { return &handle_; }

private:
    // What the violation at this place is about.
    void complete(violation &it, std::size_t at) {
        sqlkeep_violation_shown about;
        detail::check(sqlkeep_violation_about(&handle_, at, &about));
        it.constraint = detail::copied([&](auto... where) { return sqlkeep_constraint_name(&handle_, about.constraint, where...); }).value_or("");
        it.row = about.row;
        if (about.other != 0) it.other = about.other;
        for (std::size_t place = 0; place < about.columns; place++) {
            sqlkeep_cell cell;
            detail::check(sqlkeep_violation_value(&handle_, at, place, &cell));
            if (cell.kind == SQLKEEP_INTEGER) it.key.emplace_back(cell.integer);
            else if (cell.kind == SQLKEEP_NULL) it.key.emplace_back();
            else it.key.emplace_back(detail::copied([&](auto... where) { return sqlkeep_violation_text(&handle_, at, place, where...); }).value_or(""));
        }
    }

    // Accounts are asked for, or aren't, as long as this lives.
    class asking {
    public:
        asking(session &of, bool asked) : of_(of) { sqlkeep_explain(&of_.handle_, asked ? 1 : 0); }
        asking(const asking &) = delete;
        asking &operator=(const asking &) = delete;
        ~asking() {
            if (!of_.explained_) sqlkeep_explain(&of_.handle_, 0);
        }

    private:
        session &of_;
    };

    void bind(std::monostate) { detail::check(sqlkeep_bind_null(&handle_)); }
    void bind(std::nullptr_t) { detail::check(sqlkeep_bind_null(&handle_)); }
    void bind(std::nullopt_t) { detail::check(sqlkeep_bind_null(&handle_)); }
    void bind(std::string_view text) { detail::check(sqlkeep_bind_text(&handle_, detail::bytes(text), text.size())); }
    template <typename T, typename = std::enable_if_t<std::is_integral_v<T>>> void bind(T integer) {
        static_assert(!std::is_same_v<T, bool>, "the language has no BOOLEAN");
        static_assert(sizeof(T) < 8 || std::is_signed_v<T>, "an INTEGER is an int64_t");
        detail::check(sqlkeep_bind_integer(&handle_, static_cast<std::int64_t>(integer)));
    }
    template <typename T> void bind(const std::optional<T> &it) {
        if (it) bind(*it);
        else bind(std::nullopt);
    }
    void bind(const value &it) {
        std::visit([this](const auto &inside) { bind(inside); }, it);
    }
    void bind(const char *text) {
        if (text == nullptr) throw usage_error("a text is a null pointer; NULL is nullptr or an empty std::optional");
        bind(std::string_view(text));
    }
    void bind(const std::string &text) { bind(std::string_view(text)); }

    template <typename... Values> std::size_t read(std::string_view text, const Values &...values) {
        detail::check(sqlkeep_unbind(&handle_));
        (bind(values), ...);
        sqlkeep_script script;
        const std::uint32_t status = sqlkeep_read_bound(&handle_, detail::bytes(text), text.size(), &script);
        if (status == SQLKEEP_NO_TEMPLATE && sizeof...(values) == 0) return read_plain(text);
        detail::check(status);
        return whole(text, script);
    }

    std::size_t read_plain(std::string_view text) {
        sqlkeep_script script;
        detail::check(sqlkeep_read(&handle_, detail::bytes(text), text.size(), &script));
        return whole(text, script);
    }

    // The fault of the text that was read last.
    syntax_error fault_in(std::string_view text) {
        sqlkeep_place found;
        detail::check(sqlkeep_fault(&handle_, &found));
        return {detail::place_of(text, static_cast<std::size_t>(found.at)), detail::place_of(text, static_cast<std::size_t>(found.word)), found.is_cut != 0};
    }

    std::size_t whole(std::string_view text, const sqlkeep_script &script) {
        if (script.has_fault) throw fault_in(text);
        return static_cast<std::size_t>(script.statements);
    }

    template <typename... Values> sqlkeep_outcome execute_one(std::string_view statement, const Values &...values) {
        std::size_t count = 0;
        try {
            count = read(statement, values...);
        } catch (const syntax_error &fault) {
            // The text may want its semicolon alone.
            try {
                count = read(std::string(statement) + "\n;", values...);
            } catch (const error &) {
                throw fault;
            }
        }
        if (count != 1) throw usage_error("the text has " + std::to_string(count) + " statements, and one was wanted");
        return execute_explained();
    }

    sqlkeep_outcome execute_at(std::size_t at) {
        sqlkeep_outcome outcome;
        detail::check(sqlkeep_execute(&handle_, at, &outcome));
        if (outcome.kind == SQLKEEP_REFUSED) throw refused(why(outcome, at));
        return outcome;
    }

    // A refused statement changed nothing, so it is refused the same way when it is executed again, with its account. COMMIT alone rolls
    // back, so a statement about transactions is executed once, with its account.
    sqlkeep_outcome execute_explained() {
        std::uint32_t kind = 0;
        detail::check(sqlkeep_statement_kind(&handle_, 0, &kind));
        if (explained_ || kind == SQLKEEP_TRANSACTION) {
            const asking account(*this, true);
            return execute_at(0);
        }
        sqlkeep_outcome outcome;
        detail::check(sqlkeep_execute(&handle_, 0, &outcome));
        if (outcome.kind != SQLKEEP_REFUSED) return outcome;
        refusal found = why(outcome, 0);
        if (found.cause != SQLKEEP_CAUSE_OUT_OF_MEMORY) {
            const asking account(*this, true);
            detail::check(sqlkeep_execute(&handle_, 0, &outcome));
            // There may be no memory for the account.
            if (outcome.cause == found.cause) found = why(outcome, 0);
        }
        throw refused(std::move(found));
    }

    template <typename Copy> std::optional<std::string> name(Copy copy) {
        std::optional<std::string> found = detail::copied([&](auto... where) { return copy(&handle_, where...); });
        return found && found->empty() ? std::nullopt : found;
    }

    refusal why(const sqlkeep_outcome &outcome, std::size_t statement) {
        refusal found;
        found.cause = outcome.cause;
        const std::string numbered = name([](auto... to) { return sqlkeep_cause(to...); }).value_or("");
        found.cause_name = numbered.substr(numbered.find(' ') + 1);
        found.constraint = name([](auto... to) { return sqlkeep_constraint(to...); });
        found.trigger = name([](auto... to) { return sqlkeep_trigger(to...); });
        if (outcome.cause == SQLKEEP_CAUSE_SIGNAL) found.signal = name([](auto... to) { return sqlkeep_signal(to...); });
        if (outcome.row != 0) found.row = outcome.row;
        found.statement = statement;
        for (const std::string &line : account()) {
            const std::string text = line.substr(std::min(line.find_first_not_of(' '), line.size()));
            if (detail::is_of_text(outcome.cause) || !detail::is_event(text)) found.reasons.push_back(text);
        }
        return found;
    }

    std::string transcript() {
        return detail::copied([&](auto... where) { return sqlkeep_transcript(&handle_, where...); }).value_or("");
    }

    rows all_rows(std::size_t count) {
        rows found;
        std::size_t columns = 0;
        detail::check(sqlkeep_query(&handle_, &columns));
        for (std::size_t column = 0; column < columns; column++) {
            found.columns.push_back(detail::copied([&](auto... where) { return sqlkeep_query_column(&handle_, column, where...); }).value_or(""));
        }
        found.reserve(count);
        append_rows(found, count, columns);
        return found;
    }

    // The rows of the last query, copied many at a time.
    void append_rows(rows &found, std::size_t count, std::size_t columns) {
        std::vector<sqlkeep_cell> cells(columns > 2048 ? columns : 2048);
        std::vector<std::uint8_t> texts(32768);
        while (found.size() < count) {
            sqlkeep_taken taken = {0, 0};
            detail::check(sqlkeep_rows(&handle_, found.size(), cells.data(), cells.size(), texts.data(), texts.size(), &taken));
            if (taken.rows == 0) texts.resize(2 * texts.size());
            auto text = texts.cbegin();
            for (std::size_t at = 0; at < taken.rows; at++) found.push_back(row_of(&cells[at * columns], columns, text));
        }
    }

    static row row_of(const sqlkeep_cell *cells, std::size_t columns, std::vector<std::uint8_t>::const_iterator &text) {
        std::vector<value> values;
        values.reserve(columns);
        for (std::size_t column = 0; column < columns; column++) {
            values.push_back(value_of(cells[column], text));
        }
        return row(std::move(values));
    }

    // The value of a cell, whose text begins here; that of the next one begins behind it.
    static value value_of(const sqlkeep_cell &cell, std::vector<std::uint8_t>::const_iterator &text) {
        if (cell.kind == SQLKEEP_INTEGER) return cell.integer;
        if (cell.kind == SQLKEEP_NULL) return std::monostate();
        const auto from = text;
        text += static_cast<std::ptrdiff_t>(cell.length);
        return std::string(from, text);
    }

    friend class transaction;

    ::sqlkeep handle_ = SQLKEEP_EMPTY;
    bool explained_ = false;
    // Whether a keep::transaction of this session isn't over.
    bool has_transaction_ = false;
};

// A transaction that is rolled back where it isn't committed. The session stays where it is as long, and has no other one.
class transaction {
public:
    // usage_error: another transaction of the session isn't over.
    explicit transaction(session &of) : of_(&of) {
        if (of.has_transaction_) throw usage_error("another transaction of the session isn't over");
        of.has_transaction_ = true;
    }
    transaction(const transaction &) = delete;
    transaction &operator=(const transaction &) = delete;
    ~transaction() {
        if (of_ != nullptr) sqlkeep_rollback(end()->handle());
    }
    // usage_error: the transaction is over.
    void commit() {
        if (of_ == nullptr) throw usage_error("the transaction is over");
        end()->commit();
    }

private:
    session *end() noexcept {
        of_->has_transaction_ = false;
        return std::exchange(of_, nullptr);
    }

    session *of_;
};

} // namespace keep

#endif
