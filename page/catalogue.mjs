// The catalogue of a session: its tables, constraints and triggers, in the order in which they were made.

/**
 * @typedef {{name: string, type: "INTEGER" | "VARCHAR", length: number | null, default: import("./account.mjs").Value}} Column
 * @typedef {{name: string, columns: Column[]}} Table
 * @typedef {{name: string, table: string, kind: "NOT NULL" | "CHECK" | "UNIQUE" | "PRIMARY KEY" | "FOREIGN KEY", columns: string[],
 *     isDeferrable: boolean, isInitiallyDeferred: boolean, isDeferred: boolean, nullsNotDistinct: boolean, referenced: string | null, referencedColumns: string[],
 *     isMatchFull: boolean, onDelete: string | null, onUpdate: string | null, condition: string | null}} Constraint
 * @typedef {{name: string, table: string, time: "BEFORE" | "AFTER", event: "INSERT" | "UPDATE" | "DELETE", forEach: "ROW" | "STATEMENT",
 *     columns: string[], statements: number}} Trigger
 * @typedef {{tables: Table[], constraints: Constraint[], triggers: Trigger[]}} Catalogue
 */

const KINDS = ["NOT NULL", "CHECK", "UNIQUE", "PRIMARY KEY", "FOREIGN KEY"];
const ACTIONS = ["NO ACTION", "RESTRICT", "CASCADE", "SET NULL", "SET DEFAULT"];
const TIMES = ["BEFORE", "AFTER"], EVENTS = ["INSERT", "UPDATE", "DELETE"], GRANULARITIES = ["ROW", "STATEMENT"];
const INTEGER_COLUMN = 1, CHECK = 1, FOREIGN_KEY = 4;

const listed = (count, make) => Array.from({ length: count }, (_, at) => make(at));

/**
 * Reads the catalogue by the calls of the library for C.
 * @param {{ask: (name: string, ...words: bigint[]) => DataView, text: (name: string, ...words: bigint[]) => string,
 *     value: (cell: string, text: string, ...words: bigint[]) => any}} port `ask` gives the result of a call
 * @returns {Catalogue}
 */
export function readCatalogue(port) {
  const sizes = port.ask("sqlkeep_catalogue");
  const [tableCount, constraintCount, triggerCount] = [0, 8, 16].map((at) => Number(sizes.getBigUint64(at, true)));
  const tables = listed(tableCount, (at) => tableAt(port, at));
  return {
    tables,
    constraints: listed(constraintCount, (at) => constraintAt(port, at, tables)),
    triggers: listed(triggerCount, (at) => triggerAt(port, at, tables)),
  };
}

function tableAt(port, at) {
  const count = Number(port.ask("sqlkeep_table", BigInt(at)).getBigUint64(0, true));
  return { name: port.text("sqlkeep_table_name", BigInt(at)), columns: listed(count, (column) => columnAt(port, BigInt(at), BigInt(column))) };
}

function columnAt(port, table, column) {
  const type = port.ask("sqlkeep_column", table, column);
  const isInteger = Number(type.getBigUint64(0, true)) === INTEGER_COLUMN, longest = Number(type.getBigUint64(8, true));
  return {
    name: port.text("sqlkeep_column_name", table, column), type: isInteger ? "INTEGER" : "VARCHAR", length: isInteger ? null : longest,
    default: port.value("sqlkeep_default", "sqlkeep_default_text", table, column),
  };
}

// The names of columns of a table, by a call that gives their places.
function namesBy(port, name, at, count, table) {
  return listed(count, (place) => table.columns[port.ask(name, BigInt(at), BigInt(place)).getUint32(0, true)].name);
}

function constraintAt(port, at, tables) {
  const view = port.ask("sqlkeep_constraint_at", BigInt(at));
  const [kind, place] = [0, 4].map((offset) => view.getUint32(offset, true)), count = Number(view.getBigUint64(8, true));
  const [deferrable, deferred, nulls, referenced, full, onDelete, onUpdate] = listed(7, (word) => view.getUint32(16 + 4 * word, true));
  const isForeign = kind === FOREIGN_KEY, table = tables[place];
  return {
    name: port.text("sqlkeep_constraint_name", BigInt(at)), table: table.name, kind: KINDS[kind],
    columns: namesBy(port, "sqlkeep_constraint_column", at, count, table),
    isDeferrable: deferrable === 1, isInitiallyDeferred: deferred === 1, isDeferred: port.ask("sqlkeep_constraint_mode", BigInt(at)).getUint32(0, true) === 1, nullsNotDistinct: nulls === 1,
    referenced: isForeign ? tables[referenced].name : null,
    referencedColumns: isForeign ? namesBy(port, "sqlkeep_referenced_column", at, count, tables[referenced]) : [],
    isMatchFull: full === 1, onDelete: isForeign ? ACTIONS[onDelete] : null, onUpdate: isForeign ? ACTIONS[onUpdate] : null,
    condition: kind === CHECK ? port.text("sqlkeep_constraint_condition", BigInt(at)) : null,
  };
}

function triggerAt(port, at, tables) {
  const view = port.ask("sqlkeep_trigger_at", BigInt(at));
  const [place, time, event, granularity] = listed(4, (word) => view.getUint32(4 * word, true));
  const [count, statements] = [16, 24].map((offset) => Number(view.getBigUint64(offset, true)));
  const table = tables[place];
  return {
    name: port.text("sqlkeep_trigger_name", BigInt(at)), table: table.name, time: TIMES[time], event: EVENTS[event], forEach: GRANULARITIES[granularity],
    columns: namesBy(port, "sqlkeep_trigger_column", at, count, table), statements,
  };
}
