// The pane of the chosen statement: its text, its answer, and the rows of a query.

import { meaningOf } from "./causes.mjs";
import { element } from "./elements.mjs";
import { grid } from "./grid.mjs";

// The causes of which the last line says the name at fault or the reason.
const TOLD = new Set([1, 2, 3, 7, 8, 9, 10, 11, 16, 17, 18, 21]);

/** What a statement answered, as elements. */
export function saidOf(detail, text) {
  const { answer, line, lines } = detail;
  const reason = answer.kind === "refused" && TOLD.has(answer.cause) ? lines.findLast((each) => each.startsWith("  "))?.trim() : null;
  const why = answer.kind === "refused" ? meaningOf(answer) : null;
  return [
    element("pre", { class: "statement-text" }, text),
    element("p", { class: `line-of-answer ${answer.kind}` }, line),
    why ? element("p", { class: "why" }, reason ? `${reason[0].toUpperCase()}${reason.slice(1)}. ${why}` : why) : null,
    answer.kind === "rows" ? rowsOf(detail) : null,
    workOf(detail),
  ].filter(Boolean);
}

function rowsOf({ answer, columns }) {
  const heads = columns.length === (answer.rows[0]?.length ?? columns.length) ? columns : [];
  const rows = answer.rows.map((values) => ({ row: null, values, change: null }));
  return element("div", { class: "rows" }, grid({ heads, rows, keys: [], label: "Rows of the query", empty: "no rows" }));
}

function workOf({ work, isOpen, answer, savepoints }) {
  const changes = answer.kind === "changed" || work.changes > 0 ? `${count(work.changes, "row change")}, ${count(work.lookups, "look-up")} of keys. ` : "";
  return element("p", { class: "why note" }, `${changes}${isOpen ? `A transaction is open${savepointsOf(savepoints)}.` : "No transaction is open."}`);
}

const savepointsOf = (names) => (names.length === 0 ? "" : `; ${names.length === 1 ? "the savepoint" : "savepoints"} ${names.join(", ")} ${names.length === 1 ? "stands" : "stand"}`);

export const count = (number, word) => `${number.toLocaleString("en")} ${word}${number === 1 ? "" : "s"}`;

// The first word that can't stand where it does.
function wordOf({ word, isCut, told }) {
  return `${isCut ? "The script ends within that statement" : "The first word that can't stand where it does is"} at line ${word.line}, column ${word.column}: ${told}.`;
}

/** A place of the script at which no statement begins, as elements. */
export function faultOf(fault, number) {
  return [
    element("p", { class: "line-of-answer fault" }, `${number} fault ${fault.byte}`),
    element("p", { class: "why" }, `No statement begins at line ${fault.line}, column ${fault.column}${fault.words ? `: ${fault.words}` : "."}`),
    element("p", { class: "why" }, wordOf(fault)),
    element("p", { class: "why note" }, "The statements before it were executed, and nothing after it is. The mistake is in that word or before it; each statement ends with a semicolon."),
  ];
}
