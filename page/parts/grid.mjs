// Rows of values with heads, as a table. Of many rows only those that are seen are in the page.

import { writtenValue } from "../account.mjs";
import { element } from "./elements.mjs";
import { units } from "./groups.mjs";
import { Rolling } from "./rolling.mjs";

// Of few rows a long value goes over several lines; of many rows each has one line, and is as wide as its values.
const HEIGHT = 22, FEW = 60, WIDEST = 40, WIDEST_OF_MANY = 4000;

const shown = (value) => writtenValue(value).replaceAll("\n", "↵").replaceAll("\t", "⇥");

/**
 * @param {{heads: string[], keys: string[], label: string, empty: string,
 *     rows: {row: number | null, values: any[], change: object | null, isWaiting?: boolean}[]}} table
 */
export function grid({ heads, rows, keys, label, empty }) {
  const hasNumbers = rows.some((row) => row.row !== null);
  const box = element("div", { class: "grid", role: "table", "aria-label": label, "aria-rowcount": rows.length + 1 });
  box.style.setProperty("--columns", columnsOf(heads, rows, hasNumbers));
  const head = element("div", { class: "head", role: "row" }, ...(hasNumbers ? [element("span", { class: "number", role: "columnheader" }, "row")] : []),
    ...heads.map((name) => element("span", { role: "columnheader", class: keys.includes(name) ? "key" : null, title: keys.includes(name) ? "primary key" : null }, name)));
  const render = (at) => rowOf(rows[at], hasNumbers);
  if (rows.length > FEW) {
    box.tabIndex = 0;
    const rolling = new Rolling(box, HEIGHT, render, heads.length > 0 ? [head] : []);
    rolling.show(rows.length);
    const first = rows.findIndex((row) => row.change);
    requestAnimationFrame(() => rolling.reveal(Math.max(0, first)));
  } else {
    box.append(...(heads.length > 0 ? [head] : []), ...rows.map((_, at) => render(at)));
  }
  if (rows.length === 0) {
    box.append(element("div", { class: "nothing" }, empty));
  }
  return box;
}

function columnsOf(heads, rows, hasNumbers) {
  const count = rows[0]?.values.length ?? heads.length;
  const wide = (text) => Math.min(rows.length > FEW ? WIDEST_OF_MANY : WIDEST, units(text));
  const widths = Array.from({ length: count }, (_, at) => rows.reduce((most, row) => Math.max(most, wide(textOf(row, at))), units(heads[at] ?? "")));
  const number = hasNumbers ? [Math.max(3, ...[rows.at(-1)?.row ?? 0].map((row) => String(row).length)) + 2] : [];
  return [...number, ...widths].map((width) => `calc(${width}ch + 1.1rem + 1px)`).join(" ");
}

const changedAt = (row, at) => row.change?.before && row.change.after && row.change.before[at] !== row.change.after[at];

const textOf = (row, at) => (changedAt(row, at) ? `${shown(row.change.before[at])} → ${shown(row.values[at])}` : shown(row.values[at]));

// A row with a sign for what became of it: colours alone would not tell it to everybody.
function rowOf(row, hasNumbers) {
  const { change } = row;
  const kind = !change ? "" : !change.before ? "insert" : !change.after ? "delete" : "update";
  const sign = { insert: "+ ", delete: "− ", update: "± ", "": "" }[kind];
  const words = { insert: "new: ", delete: "gone: ", update: "changed: ", "": "" }[kind];
  const number = hasNumbers ? [element("span", { class: "number", role: "cell", "aria-label": `${words}row ${row.row}` }, `${sign}${row.row}`)] : [];
  return element("div", { class: `cells ${kind}`, role: "row", "data-bad": row.isWaiting ?? false, title: row.isWaiting ? "violates a constraint that waits" : null },
    ...number, ...row.values.map((value, at) => cellOf(row, value, at)));
}

function cellOf(row, value, at) {
  const name = value === null ? "value null" : "value";
  const title = units(shown(value)) > WIDEST_OF_MANY ? writtenValue(value) : null;
  if (!changedAt(row, at)) {
    return element("span", { class: name, role: "cell", title }, shown(value));
  }
  return element("span", { class: `${name} changed`, role: "cell", title }, element("s", {}, shown(row.change.before[at])), ` → ${shown(value)}`);
}
