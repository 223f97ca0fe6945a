// Groups of row boxes: the rows of one table, with a label and cells in columns.

import { writtenValue } from "../account.mjs";

/**
 * @typedef {{text: string, name: string}[]} Cell pieces of text, each with a class
 * @typedef {{label: string, kind: string, cells: Cell[], title: string}} RowBox
 * @typedef {{head: string, columns: string[], rows: RowBox[]}} Group
 */

const MOST = 26;

/** A value as it is shown: with control characters made visible, and cut where it is long. */
export function shownValue(value, most = MOST) {
  const text = writtenValue(value).replaceAll("\n", "↵").replaceAll("\t", "⇥").replace(/[\u0000-\u001f]/g, "·");
  const characters = [...text];
  return characters.length > most ? `${characters.slice(0, most - 1).join("")}…` : text;
}

const WIDE = /[\u1100-\u115f\u2e80-\ua4cf\uac00-\ud7a3\uf900-\ufaff\ufe30-\ufe4f\uff00-\uff60\uffe0-\uffe6\u{1f000}-\u{1faff}]/u;

/** How wide a text is, in characters of one width. */
export function units(text) {
  if (/^[\u0000-\u024f]*$/.test(text)) {
    return text.length;
  }
  return [...text].reduce((sum, character) => sum + (WIDE.test(character) ? 2 : 1), 0);
}

const columnsOf = (schema, table, count) => schema.tables.get(table)?.columns.map((column) => column.name) ?? Array.from({ length: count }, () => "");

// The cells of a change: of an update the columns that changed have the value before, too.
function cellsOf(before, after, name) {
  if (before && after) {
    return after.map((value, at) =>
      before[at] === value ? [{ text: shownValue(value), name: "" }]
        : [{ text: shownValue(before[at]), name: "was" }, { text: " → ", name: "soft" }, { text: shownValue(value), name: "strong update" }]);
  }
  return (after ?? before).map((value) => [{ text: shownValue(value), name }]);
}

const written = (values) => `(${values.map(writtenValue).join(", ")})`;

/** The box of a change. */
export function changeBox(change, label = change.kind) {
  const { table, row, before, after } = change;
  const kind = label === "gone" ? "gone" : label === "back" ? (before && after ? "was-changed" : "back") : change.kind;
  const title = `${label} ${table} row ${row} ${before && after ? `${written(before)} to ${written(after)}` : written(after ?? before)}`;
  return { label: `${label} row ${row}`, kind, cells: cellsOf(before, after, kind === "delete" || kind === "gone" ? "was" : ""), title, table, row };
}

/**
 * The first of a list, as many as there is room for, and the number of the others. Those that have to be seen come before the rest.
 * @template T
 * @param {T[]} list @param {number} most @param {(each: T) => boolean} isShown
 */
export function folded(list, most, isShown = () => false) {
  const kept = list.length > most ? new Set([...list.filter(isShown), ...list].slice(0, most - 1)) : null;
  return kept ? { first: list.filter((each) => kept.has(each)), rest: list.filter((each) => !kept.has(each)) } : { first: list, rest: [] };
}

/** The groups of boxes, by table in the order in which the tables come, each with at most so many boxes. */
export function groupsOf(boxes, schema, most = Infinity) {
  const groups = new Map();
  boxes.forEach((box) => {
    const group = groups.get(box.table) ?? { head: box.table, columns: columnsOf(schema, box.table, box.cells.length), rows: [] };
    group.rows.push(box);
    groups.set(box.table, group);
  });
  return [...groups.values()].map((group) => ({ ...group, rows: withFold(group.rows, most) }));
}

function withFold(rows, most) {
  const { first, rest } = folded(rows, most, (row) => / hit$/.test(row.kind));
  const label = `and ${rest.length.toLocaleString("en")} more`;
  return rest.length === 0 ? rows : [...first, { label, kind: "folded", cells: [], title: label, table: rest[0].table, row: null, covers: rest }];
}

/** A group of what a trigger saw: its old and new row, or the rows of its transition tables. */
export function seenGroups(run, schema, most) {
  const table = schema.triggers.get(run.trigger)?.table ?? "";
  const sides = [["OLD", run.old], ["NEW", run.new]].filter(([, values]) => values);
  const boxes = sides.map(([label, values]) => ({
    label, kind: "plain", cells: cellsOf(null, values, ""), title: `${label} ${written(values)}`, table,
  }));
  const saw = run.saw.filter((change) => change.table).map((change) => changeBox(change));
  return groupsOf([...boxes, ...saw], schema, most).map((group) => ({ ...group, head: run.saw.length > 0 ? `saw ${group.head}` : group.head }));
}

/** The box of a row that violates, with the columns of the constraint marked. */
export function violatingBox(violation, schema) {
  const constraint = schema.constraints.get(violation.constraint);
  const marked = schema.places(violation.table, violation.column ? [violation.column] : constraint?.columns ?? []);
  const cells = violation.values.map((value, at) => [{ text: shownValue(value), name: marked.includes(at) ? "strong violating" : "" }]);
  return {
    label: `row ${violation.row}`, kind: "violating", cells, table: violation.table, row: violation.row,
    title: `${violation.table} row ${violation.row} ${written(violation.values)}`,
  };
}

/** The group of a key that a row refers to: of one that isn't there, or of one that was lost. */
export function keyGroup(violation, schema) {
  const constraint = schema.constraints.get(violation.constraint);
  const isAbsent = violation.reason === "absent";
  const cells = violation.other.map((value) => [{ text: shownValue(value), name: "violating" }]);
  const box = { label: isAbsent ? "isn't there" : "lost key", kind: "absent", cells, title: `${violation.otherTable} ${written(violation.other)}` };
  const columns = constraint?.referencedColumns ?? [];
  return { head: violation.otherTable, columns: columns.length === cells.length ? columns : cells.map(() => ""), rows: [box] };
}

/** The box of the other row with the same key. */
export function otherBox(violation, schema) {
  const constraint = schema.constraints.get(violation.constraint);
  const marked = schema.places(violation.table, constraint?.columns ?? []);
  const cells = violation.other.map((value, at) => [{ text: shownValue(value), name: marked.includes(at) ? "strong" : "" }]);
  return { label: `row ${violation.otherRow}`, kind: "plain", cells, table: violation.table, row: violation.otherRow, title: `${violation.table} row ${violation.otherRow} ${written(violation.other)}` };
}
