// The engine in JavaScript: the library for C, compiled to WebAssembly, with a memory of its own.
//
//     import { load } from "./sqlkeep.mjs";
//     const engine = await load(bytes);          // of sqlkeep.wasm
//     engine.run("COMMIT;").transcript;          // a whole script, as the program writes it
//     const session = engine.open();
//     session.execute("CREATE TABLE t (a INT PRIMARY KEY);");
//     session.query("SELECT a FROM t");          // [[1], [2]]
//
// Values are null, numbers, BigInts where a number isn't exact, and strings. A statement that is refused throws a Refusal. Numbers and
// addresses of 64 bits cross to the module as BigInts; its memory has addresses of 32 bits.

import { entriesOf, linesOf } from "./account.mjs";
import { readCatalogue } from "./catalogue.mjs";
import { placeIn, testedFlag, testedNumber, testedOptions, testedText, testedValues, textOf, textOfParts } from "./given.mjs";
import { sentenceOf } from "./refusal.mjs";

const OK = 0, CLOSED = 1, LIMITS = 3, NOT_UTF8 = 4, TOO_LONG = 5, NO_MEMORY = 6, NOTHING = 7, WRONG_COUNT = 9, NO_TEMPLATE = 10, IN_TRANSACTION = 11, NOT_RESTORED = 12;
const CHANGED = 1, ROWS = 2, REFUSED = 3;
const TRANSACTION = 3, SIGNAL = 15, OUT_OF_MEMORY = 22;
const NULL = 0, INTEGER = 1;
// What may be missing behind a statement; it may end in a comment.
const SEMICOLON = new TextEncoder().encode("\n;");
const HANDLE_BYTES = 16, RESULT_BYTES = 64, BUFFER_BYTES = 1 << 16;

const WORDS = new Map([
  [CLOSED, "the session is closed"],
  [LIMITS, "a limit isn't in its range: depth is 1 to 64, changes 1 to 65536"],
  [NOT_UTF8, "the text is not UTF-8"],
  [TOO_LONG, "the script is longer than 1048576 bytes"],
  [NO_MEMORY, "out of memory"],
  [NOTHING, "there is nothing at this place"],
  [WRONG_COUNT, "the template has another number of question marks than there are values"],
  [NO_TEMPLATE, "the template has something that is neither a token nor a question mark"],
  [IN_TRANSACTION, "a transaction is open"],
  [NOT_RESTORED, "what was written doesn't make the same again"],
]);

/** A call that could not be made; `status` is that of the library for C. */
export class EngineError extends Error {
  constructor(message, status) {
    super(message);
    this.name = "EngineError";
    this.status = status;
  }
}

/**
 * A text with something that is no statement. It begins at byte `at`; the first word that can't stand where it does is `text`, at byte `word`,
 * at this `line` and `column`.
 */
export class SyntaxFault extends Error {
  constructor(fault, bytes) {
    const begin = placeIn(bytes, fault.at), word = placeIn(bytes, fault.word), text = textOf(bytes.subarray(fault.word, fault.end));
    const wrong = text === "" ? "no word begins" : `wrong word ${JSON.stringify([...text].slice(0, 60).join(""))}`;
    super(`no statement at line ${begin.line}, column ${begin.column}: ${fault.isCut ? "the text ends within it" : `${wrong} at line ${word.line}, column ${word.column}`}`);
    this.name = "SyntaxFault";
    Object.assign(this, fault, word, { text });
  }
}

/** A statement that was refused. `lines` are those of the program, with its account where one is asked for. */
export class Refusal extends Error {
  constructor(outcome, sentence) {
    super(sentence);
    this.name = "Refusal";
    Object.assign(this, outcome);
  }
}

/** The engine stopped by a trap. The session is given up, and so is its database. */
export class Trap extends EngineError {
  constructor(call, cause) {
    super(`the engine stopped in ${call}: ${cause.message}`, CLOSED);
    this.name = "Trap";
    this.cause = cause;
  }
}

/** Makes an engine of the bytes of sqlkeep.wasm, or of a module that was compiled of them. */
export async function load(source) {
  const made = source instanceof WebAssembly.Module ? source : await WebAssembly.compile(source);
  return new Engine(made);
}

/** What sessions are opened of. Each has a memory of its own, which goes with it. */
export class Engine {
  #module;

  constructor(module) {
    this.#module = module;
  }

  /** A database without tables. Triggers may nest `depth` deep, and a statement may make `changes` row changes. */
  open(options = {}) {
    const { depth, changes, explain } = testedOptions(options);
    if (depth < 1 || depth > 64 || changes < 1 || changes > 65536) {
      throw new EngineError(WORDS.get(LIMITS), LIMITS);
    }
    return new Session(new WebAssembly.Instance(this.#module, {}), depth, changes, explain);
  }

  /** Runs a script, a string or bytes, in a new database. */
  run(script, options = {}) {
    const session = this.open(options);
    try {
      return session.run(script);
    } finally {
      session.close();
    }
  }
}

/** A database with its transaction. */
export class Session {
  #exports;
  #handle;
  #result;
  #buffer;
  #trapped = false;
  #isOpen = false;
  #isExplained = false;
  #account = [];
  // How many texts were read: another number tells that the statements of another text are there.
  #textsRead = 0;

  constructor(instance, depth, changes, explain) {
    this.#exports = instance.exports;
    this.#handle = this.#alloc(HANDLE_BYTES);
    this.#result = this.#alloc(RESULT_BYTES);
    this.#buffer = this.#alloc(BUFFER_BYTES);
    this.#ask("sqlkeep_open", depth, changes);
    this.#isOpen = true;
    this.explain(explain);
  }

  /** From now on an account of each statement is asked for, or isn't. */
  explain(asked = true) {
    this.#ask("sqlkeep_explain", testedFlag(asked) ? 1 : 0);
    this.#isExplained = asked;
  }

  /** Runs a whole script in a new database, with the limits of this session, and leaves the session as it is. */
  run(script) {
    this.#withBytes(testedText(script), (at, length) => this.#ask("sqlkeep_run", at, length, this.#result));
    const [accepted, refused, memoryRefused, hasFault, faultAt] = [0, 1, 2, 3, 4].map((place) => this.#number(place));
    return { accepted, refused, memoryRefused, faultAt: hasFault ? faultAt : null, transcript: this.#transcript() };
  }

  /**
   * Executes the statements of a text, and gives the outcome of each. The first that is refused throws a Refusal. The semicolon of a single
   * statement may be left out. Where values are given, the text is a template: each question mark stands for a value.
   */
  execute(text, values) {
    return [...this.steps(text, values)];
  }

  /**
   * So one after the other: the next is executed when it is asked for, whatever else the session does in between. Where the text has a fault
   * nothing is executed.
   */
  *steps(text, values) {
    const given = testedValues(values), whole = this.#readWhole(testedText(text), given);
    let read = this.#textsRead;
    for (let at = 0; at < whole.statements; at++) {
      if (read !== this.#textsRead) {
        this.#read(whole.bytes, given);
        read = this.#textsRead;
      }
      yield this.#step(at, whole.statements > 1 ? `statement ${at + 1}: ` : "");
    }
  }

  // Reads a text of whole statements, with the semicolon that a single one may want.
  #readWhole(bytes, values) {
    const read = this.#read(bytes, values);
    if (read.faultAt === null) {
      return { bytes, statements: read.statements };
    }
    const fault = new SyntaxFault(this.fault, bytes);
    if (fault.isCut && read.statements === 0) {
      const ended = new Uint8Array(bytes.length + SEMICOLON.length);
      ended.set(bytes);
      ended.set(SEMICOLON, bytes.length);
      const again = this.#read(ended, values);
      if (again.faultAt === null && again.statements === 1) {
        return { bytes: ended, statements: 1 };
      }
      this.#read(bytes, values);
    }
    throw fault;
  }

  // Executes a statement that was read. One about transactions has its account at once, since COMMIT rolls back.
  #step(at, place) {
    this.#ask("sqlkeep_statement_kind", BigInt(at), this.#result);
    const isOfTransactions = this.#view.getUint32(Number(this.#result), true) === TRANSACTION;
    return this.#accepted(() => this.attempt(at), isOfTransactions, place);
  }

  // Executes, and throws a refusal with its sentence. What is refused changed nothing, so it is refused in the same way once more, with its
  // account, where it had none.
  #accepted(execute, isTold, place = "") {
    const outcome = isTold ? this.#withAccount(execute) : execute();
    let lines = this.#account;
    if (outcome.kind === "refused" && !isTold && !this.#isExplained && outcome.cause !== OUT_OF_MEMORY) {
      // There may be no memory for the account.
      lines = this.#withAccount(execute).cause === outcome.cause ? this.#account : [];
    }
    if (!this.#isExplained) {
      this.#account = [];
    }
    if (outcome.kind !== "refused") {
      return outcome;
    }
    const shown = this.#isExplained ? outcome.lines : `${linesOf(outcome.lines)[0]}\n`;
    throw new Refusal({ ...outcome, lines: shown }, place + sentenceOf(outcome, lines));
  }

  #withAccount(execute) {
    this.#ask("sqlkeep_explain", 1);
    try {
      return execute();
    } finally {
      if (!this.#isExplained && !this.#trapped) {
        this.#ask("sqlkeep_explain", 0);
      }
    }
  }

  /** Reads a text and executes nothing. The statements stay until the next text is read. */
  read(text, values) {
    return this.#read(testedText(text), testedValues(values));
  }

  #read(bytes, values) {
    if (values !== undefined) {
      this.#bind(values);
    }
    const call = values === undefined ? "sqlkeep_read" : "sqlkeep_read_bound";
    this.#withBytes(bytes, (at, length) => this.#ask(call, at, length, this.#result));
    this.#textsRead += 1;
    const [statements, hasFault, faultAt] = [0, 1, 2].map((place) => this.#number(place));
    return { statements, faultAt: hasFault ? faultAt : null };
  }

  /**
   * The fault of the text that was read last, null where it has none, in bytes of the text or of the template: where its statement begins, and where the first
   * word begins and ends that can't stand where it does. Of a text that ends within a statement it is the end, and `isCut` is true.
   */
  get fault() {
    try {
      this.#ask("sqlkeep_fault", this.#result);
    } catch (error) {
      if (error.status === NOTHING) {
        return null;
      }
      throw error;
    }
    const [at, word, end, isCut] = [0, 1, 2, 3].map((place) => this.#number(place));
    return { at, word, end, isCut: isCut === 1 };
  }

  /** Where the statement at this place, from 0, is in the text that was read last, in bytes; null if there are fewer statements. */
  place(at) {
    try {
      this.#ask("sqlkeep_statement_place", testedNumber(at), this.#result);
    } catch (error) {
      if (error.status === NOTHING) {
        return null;
      }
      throw error;
    }
    return { begin: this.#number(0), end: this.#number(1) };
  }

  /** The last outcome in words, on one line. It is asked for before the next statement is executed. */
  get message() {
    return this.#pieces("sqlkeep_message");
  }

  /** Executes the statement at this place, from 0, of the text that was read last. A refusal is an outcome of kind "refused". */
  attempt(at, number) {
    const place = testedNumber(at), told = number === undefined ? place + 1n : testedNumber(number);
    this.#ask("sqlkeep_execute", place, this.#result);
    return this.#outcome(told);
  }

  #bind(values) {
    this.#ask("sqlkeep_unbind");
    for (const value of values) {
      if (value === null) {
        this.#ask("sqlkeep_bind_null");
      } else if (typeof value === "bigint") {
        this.#ask("sqlkeep_bind_integer", value);
      } else {
        this.#withBytes(value, (at, length) => this.#ask("sqlkeep_bind_text", at, length));
      }
    }
  }

  /** The account of the last statement, as objects; empty where no account is asked for. */
  get account() {
    return entriesOf(this.#account);
  }

  /** The rows of the last statement of a text, which is a query. */
  query(text, values) {
    const last = this.execute(text, values).at(-1);
    if (!last || last.kind !== "rows") {
      throw new EngineError("the last statement is no query", NOTHING);
    }
    return last.rows;
  }

  /** The tables, constraints and triggers, in the order in which they were made. */
  catalogue() {
    return readCatalogue({
      ask: (name, ...words) => {
        this.#ask(name, ...words, this.#result);
        return new DataView(this.#exports.memory.buffer, Number(this.#result), RESULT_BYTES);
      },
      text: (name, ...words) => this.#pieces(name, ...words),
      value: (cell, text, ...words) => this.#value(cell, text, ...words),
    });
  }

  /**
   * The database as scripts that make it again, to be executed one after another in a new session. It throws an EngineError where a
   * transaction is open, or where the scripts, which are run in a database of their own, don't make this one again.
   */
  dump() {
    this.#ask("sqlkeep_dump", this.#result);
    return Array.from({ length: this.#number(0) }, (_, at) => this.#pieces("sqlkeep_dump_script", BigInt(at)));
  }

  /** COMMIT. */
  commit() {
    this.#accepted(() => {
      this.#ask("sqlkeep_commit", this.#result);
      return this.#outcome(1n);
    }, true);
  }

  /** ROLLBACK. */
  rollback() {
    this.#ask("sqlkeep_rollback");
  }

  /** ROLLBACK TO SAVEPOINT. The name is folded to upper case, as a statement's. */
  rollbackTo(name) {
    const folded = testedText(name).map((byte) => (byte >= 97 && byte <= 122 ? byte - 32 : byte));
    this.#accepted(() => {
      this.#withBytes(folded, (at, length) => this.#ask("sqlkeep_rollback_to", at, length, this.#result));
      return this.#outcome(1n);
    }, true);
  }

  get inTransaction() {
    this.#ask("sqlkeep_in_transaction", this.#result);
    return this.#view.getUint8(Number(this.#result)) !== 0;
  }

  /** The violations of deferred constraints, what COMMIT would find first at the front. */
  pending() {
    this.#ask("sqlkeep_pending", this.#result);
    const count = this.#number(0);
    return Array.from({ length: count }, (_, at) => this.#violation(BigInt(at)));
  }

  // A violation that was found: the row has these values in the columns of the constraint, and the other row has them too.
  #violation(at) {
    this.#ask("sqlkeep_violation_about", at, this.#result);
    const named = this.#view.getUint32(Number(this.#result), true), [columns, row, other] = [1, 2, 3].map((place) => this.#number(place));
    const constraint = this.#pieces("sqlkeep_constraint_name", BigInt(named));
    const key = Array.from({ length: columns }, (_, place) => this.#value("sqlkeep_violation_value", "sqlkeep_violation_text", at, BigInt(place)));
    return { row, constraint, key, other: other || null };
  }

  /** How many row changes the last statement made and undid, and how many keys it looked up for constraints. */
  work() {
    this.#ask("sqlkeep_work", this.#result);
    return { changes: this.#number(0), undone: this.#number(1), lookups: this.#number(2) };
  }

  /** Frees what the session holds. A transaction that is open is lost. */
  close() {
    if (this.#isOpen && !this.#trapped) {
      this.#isOpen = false;
      this.#call("sqlkeep_close", this.#handle);
    }
  }

  [Symbol.dispose ?? Symbol("dispose")]() {
    this.close();
  }

  get #view() {
    return new DataView(this.#exports.memory.buffer);
  }

  #bytes(at, length) {
    return new Uint8Array(this.#exports.memory.buffer, Number(at), length);
  }

  #number(place) {
    return Number(this.#view.getBigUint64(Number(this.#result) + 8 * place, true));
  }

  #alloc(length) {
    const at = this.#exports.page_alloc(BigInt(length));
    if (!at) {
      throw new EngineError(WORDS.get(NO_MEMORY), NO_MEMORY);
    }
    this.#bytes(at, length).fill(0);
    return BigInt.asUintN(64, BigInt(at));
  }

  // After a trap nothing is known of the module's memory, so nothing more is asked of it.
  #call(name, ...words) {
    if (this.#trapped) {
      throw new EngineError("the session was given up after a trap", CLOSED);
    }
    try {
      return this.#exports[name](...words);
    } catch (error) {
      this.#trapped = true;
      throw new Trap(name, error);
    }
  }

  #ask(name, ...words) {
    const status = this.#call(name, this.#handle, ...words);
    if (status !== OK) {
      throw new EngineError(WORDS.get(status) ?? `status ${status}`, status);
    }
  }

  #withBytes(bytes, ask) {
    const at = this.#alloc(bytes.length || 1);
    try {
      this.#bytes(at, bytes.length).set(bytes);
      ask(at, BigInt(bytes.length));
    } finally {
      if (!this.#trapped) {
        this.#exports.page_free(at);
      }
    }
  }

  // A text that a call gives in pieces.
  #pieces(name, ...words) {
    return textOfParts(this.#parts(name, words));
  }

  *#parts(name, words) {
    for (let from = 0n, length = 1; length > 0; from += BigInt(length)) {
      this.#ask(name, ...words, from, this.#buffer, BigInt(BUFFER_BYTES), this.#result);
      length = this.#number(0);
      yield this.#bytes(this.#buffer, length);
    }
  }

  #transcript() {
    return this.#pieces("sqlkeep_transcript");
  }

  // What a statement answered, with its lines.
  #outcome(number) {
    const view = this.#view, at = Number(this.#result);
    const kind = view.getUint32(at, true), cause = view.getUint32(at + 4, true), count = this.#number(1), row = this.#number(2);
    this.#ask("sqlkeep_lines", number);
    const lines = this.#transcript();
    this.#account = kind === ROWS ? [] : linesOf(lines).slice(1);
    if (kind === REFUSED) {
      const [constraint, trigger] = ["constraint", "trigger"].map((what) => this.#pieces("sqlkeep_" + what) || null);
      const signal = cause === SIGNAL ? this.#pieces("sqlkeep_signal") : null;
      return { kind: "refused", cause, reason: this.#pieces("sqlkeep_cause"), constraint, trigger, signal, row: row || null, lines, number: Number(number) };
    }
    if (kind === ROWS) {
      return { kind: "rows", count, columns: this.#columns(), rows: this.#rows(count), lines };
    }
    return { kind: kind === CHANGED ? "changed" : "done", count, lines };
  }

  // The names of the columns of the query that was executed last; empty for an expression that is no column.
  #columns() {
    this.#ask("sqlkeep_query", this.#result);
    return Array.from({ length: this.#number(0) }, (_, column) => this.#pieces("sqlkeep_query_column", BigInt(column)));
  }

  #rows(count) {
    return Array.from({ length: count }, (_, row) => {
      this.#ask("sqlkeep_columns", BigInt(row), this.#result);
      return Array.from({ length: this.#number(0) }, (_, column) => this.#value("sqlkeep_value", "sqlkeep_value_text", BigInt(row), BigInt(column)));
    });
  }

  #value(cell, text, ...place) {
    this.#ask(cell, ...place, this.#result);
    const kind = this.#number(0);
    if (kind === NULL) {
      return null;
    }
    if (kind === INTEGER) {
      const integer = this.#view.getBigInt64(Number(this.#result) + 8, true);
      return Number.isSafeInteger(Number(integer)) ? Number(integer) : integer;
    }
    return this.#pieces(text, ...place);
  }
}
