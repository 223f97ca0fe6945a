// The rows of all tables with their numbers, as the accounts of accepted statements tell them, and the way back.

/** @typedef {{table: string, row: number, before: any[] | null, after: any[] | null}} Change */

export class Journal {
  /** @type {Map<string, Map<number, any[]>>} */
  #tables = new Map();
  /** @type {Change[]} */
  #made = [];
  /** @type {{name: string, at: number}[]} */
  #savepoints = [];

  /** The names of the savepoints that stand, in the order in which they were set. */
  get standing() {
    return this.#savepoints.map((savepoint) => savepoint.name);
  }

  /** The rows of a table by number. */
  rows(table) {
    return this.#tables.get(table) ?? new Map();
  }

  /** The row numbers that belong to these rows of a table, which are in the order of their numbers; null if they aren't these rows. */
  numbers(table, values) {
    const rows = [...this.rows(table)].sort(([one], [other]) => one - other);
    const isSame = rows.length === values.length && rows.every(([, row], at) => isEqual(row, values[at]));
    return isSame ? rows.map(([number]) => number) : null;
  }

  /** Takes in a statement that was executed, and gives the net changes of rows. */
  follow({ statement, outcome, entries, isOpen }) {
    const words = statement ? statement.tokens.map((token) => token.word).filter((word) => word !== "WORK") : [];
    const made = this.#made.length;
    let undone = [];
    if (words[0] === "ROLLBACK" && words[1] === "TO" && outcome.kind !== "refused") {
      undone = this.#backTo(words[3]);
    } else if (words[0] === "ROLLBACK" && words[1] === ";") {
      undone = this.#back(0);
    } else if (words[0] === "COMMIT" && outcome.kind === "refused") {
      undone = this.#back(0);
    } else if (outcome.kind === "changed") {
      changesOf(entries).forEach((change) => this.#make(change));
    } else if (outcome.kind !== "refused") {
      this.#mark(words);
    }
    const changes = undone.length > 0 ? undone : this.#made.slice(made);
    this.#close(isOpen);
    return netOf(changes);
  }

  #close(isOpen) {
    if (!isOpen) {
      this.#made = [];
      this.#savepoints = [];
    }
  }

  #make(change) {
    this.#set(change.table, change.row, change.after);
    this.#made.push(change);
  }

  #set(table, row, values) {
    if (!this.#tables.has(table)) {
      this.#tables.set(table, new Map());
    }
    if (values) {
      this.#tables.get(table).set(row, values);
    } else {
      this.#tables.get(table).delete(row);
    }
  }

  // Undoes all changes after the first so many, and gives them turned round.
  #back(length) {
    const undone = this.#made.splice(length).reverse().map((change) => ({ ...change, before: change.after, after: change.before }));
    undone.forEach((change) => this.#set(change.table, change.row, change.after));
    return undone;
  }

  #backTo(name) {
    const place = this.#savepoints.findLastIndex((savepoint) => savepoint.name === name);
    if (place < 0) {
      return [];
    }
    this.#savepoints.length = place + 1;
    return this.#back(this.#savepoints[place].at);
  }

  #mark(words) {
    if (words[0] === "SAVEPOINT") {
      this.#savepoints = this.#savepoints.filter((savepoint) => savepoint.name !== words[1]);
      this.#savepoints.push({ name: words[1], at: this.#made.length });
    } else if (words[0] === "RELEASE") {
      const place = this.#savepoints.findLastIndex((savepoint) => savepoint.name === words[2]);
      this.#savepoints.length = place < 0 ? this.#savepoints.length : place;
    }
  }
}

/** The changes of an account, those of triggers too, in their order. */
export function changesOf(entries) {
  return entries.flatMap((entry) => {
    if (entry.kind === "trigger") {
      return entry.statements.flatMap((statement) => changesOf(statement.entries));
    }
    return ["insert", "delete", "update"].includes(entry.kind) ? [{ table: entry.table, row: entry.row, before: entry.before, after: entry.after }] : [];
  });
}

/** Of each row its first value before and its last value after; a row that came and went is left out. */
export function netOf(changes) {
  const rows = new Map();
  for (const change of changes) {
    const key = `${change.table} ${change.row}`;
    const first = rows.get(key);
    rows.set(key, first ? { ...first, after: change.after } : { ...change });
  }
  return [...rows.values()].filter((change) => change.before || change.after);
}

/** Whether two rows have the same values. */
export function isEqual(one, other) {
  return one.length === other.length && one.every((value, at) => value === other[at]);
}
