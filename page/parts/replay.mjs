// A script in a session of its own, run up to any of its statements, with the rows and violations as they are then.

import { linesOf } from "../account.mjs";
import { statementsOf, tokensOf } from "./tokens.mjs";
import { isAsExpected } from "./lesson.mjs";
import { Journal } from "./journal.mjs";

const PENDING_UP_TO = 400;

/** Where a byte of a text stands: its place, its line and its column, and the words there. */
export function placeOfByte(text, byte) {
  const before = new TextDecoder().decode(new TextEncoder().encode(text).subarray(0, byte));
  const lines = before.split("\n");
  const words = /^[^\u0000-\u0008\u000a-\u001f\u007f]*/.exec(text.slice(before.length))[0];
  return { at: before.length, line: lines.length, column: [...lines.at(-1)].length + 1, words: [...words].slice(0, 60).join("") };
}

// Where the wrong word ends; a character that begins no word is marked alone.
function endOf(text, { word, end }) {
  const { at } = placeOfByte(text, word);
  return Math.max(placeOfByte(text, end).at, at + String.fromCodePoint(text.codePointAt(at) ?? 0).length);
}

// What the engine says of the fault of a text that begins with it: the word, and what might have stood there or is known of it.
function toldOf(engine, text) {
  return /^1 fault 0\n  line \d+, column \d+: (.*)/.exec(engine.run(text, { explain: true }).transcript)?.[1] ?? "";
}

export class Replay {
  /**
   * The place at which no statement begins, that of the first word that can't stand where it does, and what is told of it.
   * @type {{at: number, line: number, column: number, words: string, byte: number, word: ReturnType<typeof placeOfByte>, end: number, isCut: boolean, told: string} | null}
   */
  fault = null;

  /** @param {import("../sqlkeep.mjs").Engine} engine @param {string} script @param {{depth: number, changes: number}} limits */
  constructor(engine, script, limits) {
    this.engine = engine;
    this.limits = limits;
    this.script = script;
    this.statements = statementsOf(tokensOf(script));
    this.restart();
    // The engine executes nothing of a text with a fault, so the statements before it are read alone.
    if (this.fault) {
      this.restart(script.slice(0, this.fault.at));
    }
  }

  /** Begins again with a new session, before the first statement. */
  restart(script = this.whole) {
    this.session?.close();
    this.session = this.engine.open({ ...this.limits, explain: true });
    this.whole = script ?? this.script;
    const { statements } = this.session.read(this.whole);
    const { fault } = this.session;
    if (fault) {
      const place = placeOfByte(this.script, fault.at);
      this.fault = { ...place, byte: fault.at, word: placeOfByte(this.script, fault.word), end: endOf(this.script, fault), isCut: fault.isCut, told: toldOf(this.engine, this.script.slice(place.at)) };
    }
    this.count = statements;
    this.at = 0;
    this.last = null;
    this.isRead = true;
    this.journal = new Journal();
  }

  /** Executes the next statement, and gives what a list of answers shows of it. */
  step() {
    if (!this.isRead) {
      this.session.read(this.whole);
      this.isRead = true;
    }
    const outcome = this.session.attempt(this.at);
    const statement = this.statements[this.at];
    const isOpen = this.session.inTransaction;
    const account = this.session.account;
    const changes = this.journal.follow({ statement, outcome, entries: outcome.kind === "changed" ? account : [], isOpen });
    this.at += 1;
    this.last = { outcome, account, changes, isOpen, work: this.session.work() };
    return { line: linesOf(outcome.lines)[0], kind: outcome.kind, pending: this.count <= PENDING_UP_TO ? this.session.pending().length : null };
  }

  /** Goes to the moment after the statement with this number. */
  goTo(number) {
    if (number < this.at) {
      this.restart();
    }
    while (this.at < number) {
      this.step();
    }
  }

  /** All that is to be seen after the statement with this number. */
  view(number) {
    this.goTo(number);
    const { outcome, account, changes, isOpen, work } = this.last;
    const { lines, ...answer } = outcome;
    const texts = linesOf(lines), catalogue = this.session.catalogue();
    return {
      number, answer, line: texts[0], lines: outcome.kind === "rows" ? [] : texts.slice(1), account, changes, isOpen, work, catalogue,
      savepoints: this.journal.standing, tables: this.tables(catalogue), pending: this.pending(catalogue), columns: this.columnsOf(outcome, number),
    };
  }

  pending({ constraints }) {
    const tables = new Map(constraints.map(({ name, table }) => [name, table]));
    return this.session.pending().map((each) => {
      const table = tables.get(each.constraint);
      return { ...each, table, values: this.journal.rows(table).get(each.row) ?? null };
    });
  }

  /** The rows of each table, from a SELECT. Row numbers are those of the accounts, where they tell the same rows. */
  tables(catalogue) {
    this.isRead = false;
    return catalogue.tables.map(({ name }) => {
      const values = this.session.query(`SELECT * FROM ${name};`);
      const numbers = this.journal.numbers(name, values);
      return { name, rows: values.map((row, at) => ({ row: numbers?.[at] ?? null, values: row })) };
    });
  }

  /** Executes statements one after the other behind the script, each alone; its line, and whether it is as expected. */
  check(checks) {
    this.goTo(this.count);
    this.isRead = false;
    return checks.map((check) => {
      const { statements } = this.session.read(check.statement);
      if (statements !== 1 || this.session.fault) {
        return { isPassed: false, said: "this check is no single statement" };
      }
      const outcome = this.session.attempt(0);
      return { isPassed: isAsExpected(check, outcome), said: linesOf(outcome.lines)[0].replace(/^1 /, "") };
    });
  }

  // The heads of a query: the names of its columns, and the texts of its expressions.
  columnsOf(outcome, number) {
    if (outcome.kind !== "rows" || outcome.columns.every((name) => name !== "")) {
      return outcome.columns ?? [];
    }
    const { tokens } = this.statements[number - 1];
    const texts = listOf(this.script, tokens.slice(1, tokens.findIndex((token) => token.word === "FROM")));
    return outcome.columns.map((name, at) => name || texts[at] || "");
  }
}

// The texts between the commas outside of parentheses.
function listOf(text, tokens) {
  let depth = 0, from = tokens[0]?.at;
  const texts = [];
  for (const token of [...tokens, { word: ",", at: tokens.at(-1)?.end }]) {
    depth += { "(": 1, ")": -1 }[token.word] ?? 0;
    if (token.word === "," && depth === 0) {
      texts.push(text.slice(from, token.at).trim());
      from = token.end;
    }
  }
  return texts;
}
