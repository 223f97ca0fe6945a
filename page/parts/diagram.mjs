// The schema as a diagram: tables one below the other, and each foreign key as an arrow beside them to the table that it refers to.

import { writtenValue } from "../account.mjs";
import { units } from "./groups.mjs";

const PAD = 12, LINE = 20, HEAD = 26, BETWEEN = 16, TRACK = 12, TIP = 8;

// A text in lines that aren't longer than this, broken between words; what goes on is indented.
function broken(text, most) {
  return text.split(" ").reduce((lines, word) => {
    const last = lines.at(-1);
    if (last === undefined || units(last) + 1 + units(word) > most) {
      return [...lines, last === undefined ? word : `  ${word}`];
    }
    return [...lines.slice(0, -1), `${last} ${word}`];
  }, []);
}

/** Puts the tables of a schema on a sheet. */
export function diagram(schema, sheet, room) {
  const tables = [...schema.tables.values()];
  const foreign = tables.flatMap((table) => table.constraints.filter((constraint) => constraint.kind === "FOREIGN KEY" && schema.tables.has(constraint.referenced)));
  const margin = foreign.length * TRACK + 3 * PAD + TIP;
  const most = Math.max(24, Math.floor((room - margin - 2 * PAD) / sheet.characterWidth));
  const parts = tables.map((table) => partsOf(table, schema, most));
  const widest = Math.max(...parts.map((part) => Math.max(...part.lines.map((line) => units(line.text)), units(part.name) + 6)));
  const width = widest * sheet.characterWidth + 2 * PAD;
  const places = new Map();
  const bottom = parts.reduce((y, part) => placeTable(sheet, part, y, width, places) + BETWEEN, PAD) - BETWEEN;
  arrows(sheet, foreign, places, PAD + width);
  return { width: PAD + width + margin, height: bottom + PAD };
}

function typeOf({ type, length, default: value }) {
  return `${type === "INTEGER" ? "INT" : `${type}(${length})`}${value === null ? "" : ` DEFAULT ${writtenValue(value)}`}`;
}

function timeOf(constraint) {
  return constraint.isInitiallyDeferred ? " deferred" : constraint.isDeferrable ? " deferrable" : "";
}

function actionsOf(constraint) {
  const actions = [["on delete", constraint.onDelete], ["on update", constraint.onUpdate]].filter(([, action]) => action !== "NO ACTION");
  return actions.map(([event, action]) => ` ${event} ${action.toLowerCase()}`).join("");
}

function ruleOf(constraint) {
  const columns = constraint.columns.join(", ");
  if (constraint.kind === "FOREIGN KEY") {
    return `${constraint.name} (${columns}) refers to ${constraint.referenced}${constraint.isMatchFull ? " match full" : ""}${actionsOf(constraint)}${timeOf(constraint)}`;
  }
  return constraint.kind === "CHECK" ? `${constraint.name} check ${constraint.condition}${timeOf(constraint)}` : `${constraint.name} ${constraint.kind.toLowerCase()}${constraint.nullsNotDistinct ? " nulls not distinct" : ""} (${columns})${timeOf(constraint)}`;
}

// The lines of a table: its columns, its constraints, its triggers.
function partsOf(table, schema, most) {
  const named = Math.max(0, ...table.columns.map((column) => column.name.length));
  const lines = [
    ...table.columns.map((column) => ({ text: `${column.name}${"\u00a0".repeat(named - column.name.length)} ${typeOf(column)}`, name: "", constraint: null })),
    ...table.constraints.map((constraint) => ({ text: ruleOf(constraint), name: constraint.kind === "FOREIGN KEY" ? "accent" : "soft", constraint: constraint.name })),
    ...[...schema.triggers.values()].filter((trigger) => trigger.table === table.name)
      .map((trigger) => ({ text: `trigger ${trigger.name} ${trigger.time.toLowerCase()} ${trigger.event.toLowerCase()}${trigger.columns.length > 0 ? ` of ${trigger.columns.join(", ")}` : ""}`, name: "trigger-text", constraint: null })),
  ];
  const parts = lines.flatMap((line) => broken(line.text, most).map((text, at) => ({ ...line, text, constraint: at === 0 ? line.constraint : null })));
  return { name: table.name, lines: parts };
}

function placeTable(sheet, part, y, width, places) {
  const height = HEAD + part.lines.length * LINE + 6;
  sheet.box(PAD, y, width, height, "panel");
  sheet.text(2 * PAD, y + 18, part.name, "strong");
  places.set(part.name, y + 14);
  part.lines.forEach((line, at) => {
    const base = y + HEAD + 14 + at * LINE;
    sheet.text(2 * PAD, base, line.text, line.name);
    if (line.constraint) {
      places.set(`constraint ${line.constraint}`, base - 4);
    }
  });
  return y + height;
}

// Each foreign key has a track of its own; the shorter its way, the nearer the track.
function arrows(sheet, foreign, places, right) {
  const ways = foreign.map((constraint) => ({ from: places.get(`constraint ${constraint.name}`), to: places.get(constraint.referenced) }));
  ways.sort((one, other) => Math.abs(one.from - one.to) - Math.abs(other.from - other.to));
  ways.forEach(({ from, to }, at) => {
    const x = right + PAD + TIP + at * TRACK, end = right + TIP;
    sheet.path(right, from, to, "arrow", `M0 0H${x - right}V${to - from}H${end - right}`);
    sheet.path(right, to, to, "tip", `M0 0l${TIP} -4.5v9z`);
  });
}
