// The pane of tables: their rows as they are after the chosen statement, with what changed.

import { element } from "./elements.mjs";
import { grid } from "./grid.mjs";
import { count } from "./said.mjs";

/** The tables as elements. */
export function tablesOf({ tables, changes, pending, schema }) {
  if (tables.length === 0) {
    return element("p", { class: "none" }, "There is no table yet.");
  }
  const waiting = new Set(pending.map((each) => each.row));
  return element("div", { class: "tables" }, ...tables.map((table) => tableOf(table, changes.filter((change) => change.table === table.name), waiting, schema)));
}

function tableOf({ name, rows }, changes, waiting, schema) {
  const table = schema.tables.get(name);
  const keys = table?.constraints.find((constraint) => constraint.kind === "PRIMARY KEY")?.columns ?? [];
  const heads = table?.columns.map((column) => column.name) ?? [];
  const all = withChanges(rows, changes).map((row) => ({ ...row, isWaiting: waiting.has(row.row) }));
  return element("div", { class: "table" },
    element("h3", {}, `${name} `, element("span", {}, count(rows.length, "row"))),
    grid({ heads, rows: all, keys, label: `Table ${name}`, empty: "no rows" }));
}

// The rows with their changes, and at their places those that are gone.
function withChanges(rows, changes) {
  const byRow = new Map(changes.map((change) => [change.row, change]));
  const marked = rows.map((row) => ({ ...row, change: row.row === null ? null : byRow.get(row.row) ?? null }));
  const gone = changes.filter((change) => !change.after).map((change) => ({ row: change.row, values: change.before, change }));
  return gone.length > 0 ? [...marked, ...gone].sort((one, other) => one.row - other.row) : marked;
}
