// The lines of an account as objects. docs/language/accounts.md has the form of each line.

/**
 * @typedef {null | number | bigint | string} Value
 * @typedef {{kind: "insert" | "delete" | "update", table: string, row: number, before: Value[] | null, after: Value[] | null}} Change
 * @typedef {{kind: "action", constraint: string, action: string, table: string, row: number}} Action
 * @typedef {{kind: "statement", place: number, entries: Entry[], changesNothing?: true}} BodyStatement
 * @typedef {{kind: "trigger", trigger: string, old: Value[] | null, new: Value[] | null, saw: Change[], statements: BodyStatement[]}} Run
 * @typedef {{kind: "skipped", trigger: string, old: Value[] | null, new: Value[] | null, when: "false" | "unknown"}} Skipped
 * @typedef {{kind: "violation", constraint: string, rule?: string, table: string, row: number, values: Value[], reason: string, condition?: string,
 *     withValues?: string, column?: string, otherTable?: string, otherRow?: number, other?: Value[], otherConstraint?: string, value?: Value, otherValue?: Value}} Violation
 * @typedef {{kind: "savepoints", standing: string[]}} Savepoints
 * @typedef {{kind: "note", text: string}} Note
 * @typedef {Change | Action | Run | Skipped | Violation | Savepoints | Note} Entry
 */

const ACTION = /^(\w+) (CASCADE|SET NULL|SET DEFAULT) on (\w+) row (\d+)$/;
const CHANGE = /^(insert|delete|update) (\w+) row (\d+) /;
const VIOLATION = /^(\w+)(?: \(((?:NOT NULL|CHECK|UNIQUE|PRIMARY KEY|FOREIGN KEY)[\w ,()]*)\))?: (\w+) row (\d+) /;
const SAVEPOINTS = /^(?:no savepoint stands|savepoints that stand: (\w+(?:, \w+)*))$/;
const VALUE = /NULL|-?\d+|'[^']*(?:''[^']*)*'/y;
/** @type {[string, RegExp][]} */
const REASONS = [
  ["condition", / makes ((?:[^']|'[^']*')+) false \(((?:[^']|'[^']*')+)\)$/y],
  ["null", / has NULL in (\w+)$/y],
  ["key", / has the key of row (\d+) /y],
  ["null key", / has a null in its key$/y],
  ["absent", / refers to (\w+) (?=\()/y],
  ["some nulls", / has some nulls in its key$/y],
];
const REFERS = { ", which isn't there": "absent", ", which RESTRICT protects": "restrict" };
const CONFLICT = /, and (\w+) sets (\w+) to /y;
const WHERE = /, where \w+ sets it to /y;

// Words of the program's own at the end of a line, with a quote in them.
const ABSENT = "isn't there";

const isOpen = (line) => ((line.split("'").length - (line.endsWith(ABSENT) ? 2 : 1)) & 1) === 1;

/**
 * The lines of a text. A line feed between quotes ends no line.
 * @param {string} text
 */
export function linesOf(text) {
  const lines = [];
  let own = "";
  for (const piece of text.split("\n")) {
    own += own === "" ? piece : `\n${piece}`;
    if (!isOpen(own)) {
      lines.push(own);
      own = "";
    }
  }
  return own === "" ? (lines.at(-1) === "" ? lines.slice(0, -1) : lines) : [...lines, own];
}

/**
 * What an account tells, as objects in its order.
 * @param {string[]} lines the lines below that of the statement, with their indents
 * @returns {Entry[]}
 */
export function entriesOf(lines) {
  const root = [], open = [{ depth: 0, entries: root, trigger: null }];
  for (const line of lines) {
    const depth = line.search(/[^ ]|$/) / 2;
    while (open.length > 1 && open.at(-1).depth >= depth) {
      open.pop();
    }
    place(entryOf(line.trimStart()), depth, open);
  }
  return root;
}

/**
 * The violations that an account tells: the constraint as its line names it, and what is the matter with which row.
 * @param {string[]} lines
 */
export function violationsOf(lines) {
  return lines.map((line) => line.trimStart()).filter((line) => VIOLATION.test(line)).map((line) => {
    const at = line.indexOf(": ");
    return { constraint: line.slice(0, at), matter: line.slice(at + 2) };
  });
}

// Puts an entry where it belongs: into the statement of a body that is open, or into a trigger.
function place(entry, depth, open) {
  const level = open.at(-1);
  if (entry.kind === "statement" && level.trigger) {
    level.trigger.statements.push(entry);
    open.push({ depth, entries: entry.entries, trigger: null });
  } else if (entry.kind === "saw" && level.trigger) {
    level.trigger.saw.push(entry.change);
  } else {
    level.entries.push(entry);
    level.trigger = entry.kind === "trigger" ? entry : null;
  }
}

function entryOf(line) {
  if (line.startsWith("saw ")) {
    return { kind: "saw", change: changeOf(line.slice(4)) ?? { kind: "note", text: line } };
  }
  const statement = /^statement (\d+)( changes nothing)?$/.exec(line);
  if (statement) {
    return { kind: "statement", place: Number(statement[1]), entries: [], ...(statement[2] ? { changesNothing: true } : {}) };
  }
  return changeOf(line) ?? actionOf(line) ?? triggerOf(line) ?? violationOf(line) ?? savepointsOf(line) ?? { kind: "note", text: line };
}

function changeOf(line) {
  const found = CHANGE.exec(line);
  if (!found) {
    return null;
  }
  const [head, kind, table, row] = found;
  const first = valuesAt(line, head.length);
  const second = kind === "update" && line.startsWith(" to ", first.end) ? valuesAt(line, first.end + 4).values : null;
  return { kind, table, row: Number(row), before: kind === "insert" ? null : first.values, after: kind === "insert" ? first.values : second };
}

function actionOf(line) {
  const found = ACTION.exec(line);
  return found && { kind: "action", constraint: found[1], action: found[2], table: found[3], row: Number(found[4]) };
}

function triggerOf(line) {
  const found = /^trigger (\w+)(?= (?:OLD|NEW) \(| skipped: |$)/.exec(line);
  if (!found) {
    return null;
  }
  const entry = { kind: "trigger", trigger: found[1], old: null, new: null, saw: [], statements: [] };
  let at = found[0].length;
  if (line.startsWith(" OLD ", at)) {
    ({ values: entry.old, end: at } = valuesAt(line, at + 5));
  }
  if (line.startsWith(" NEW ", at)) {
    ({ values: entry.new, end: at } = valuesAt(line, at + 5));
  }
  const skipped = /^ skipped: WHEN is (false|unknown)$/.exec(line.slice(at));
  return skipped ? { kind: "skipped", trigger: entry.trigger, old: entry.old, new: entry.new, when: skipped[1] } : entry;
}

function violationOf(line) {
  const found = VIOLATION.exec(line);
  if (!found) {
    return null;
  }
  const { values, end } = valuesAt(line, found[0].length);
  const rule = found[2] ? { rule: found[2] } : {};
  return { kind: "violation", constraint: found[1], ...rule, table: found[3], row: Number(found[4]), values, ...reasonOf(line, end) };
}

function savepointsOf(line) {
  const found = SAVEPOINTS.exec(line);
  return found && { kind: "savepoints", standing: found[1]?.split(", ") ?? [] };
}

function reasonOf(line, at) {
  for (const [reason, form] of REASONS) {
    form.lastIndex = at;
    const found = form.exec(line);
    if (found) {
      return { reason, ...detailsOf(reason, found, line, at + found[0].length) };
    }
  }
  return { reason: line.slice(at).trim() };
}

function detailsOf(reason, found, line, at) {
  if (reason === "condition") {
    return { condition: found[1], withValues: found[2] };
  }
  if (reason === "null") {
    return { column: found[1] };
  }
  if (reason === "key") {
    return { otherRow: Number(found[1]), other: valuesAt(line, at).values };
  }
  if (reason === "absent") {
    const { values, end } = valuesAt(line, at);
    const conflict = conflictAt(line, end);
    return { reason: conflict ? "conflict" : REFERS[line.slice(end)] ?? "absent", otherTable: found[1], other: values, ...conflict };
  }
  return {};
}

// Which earlier foreign key sets which column to another value; null where none does.
function conflictAt(line, at) {
  CONFLICT.lastIndex = at;
  const found = CONFLICT.exec(line);
  if (!found) {
    return null;
  }
  const first = literalAt(line, CONFLICT.lastIndex);
  WHERE.lastIndex = first.end;
  WHERE.exec(line);
  return { otherConstraint: found[1], column: found[2], otherValue: first.value, value: literalAt(line, WHERE.lastIndex).value };
}

// The value at this place, and where it ends.
function literalAt(line, at) {
  VALUE.lastIndex = at;
  const found = VALUE.exec(line);
  return { value: valueOf(found[0]), end: at + found[0].length };
}

// The values between the parenthesis at this place and the one that closes them.
function valuesAt(line, at) {
  const values = [];
  for (let place = at + 1; ; place += 2) {
    VALUE.lastIndex = place;
    const found = VALUE.exec(line);
    if (!found) {
      return { values, end: place };
    }
    values.push(valueOf(found[0]));
    place += found[0].length;
    if (line[place] !== ",") {
      return { values, end: place + 1 };
    }
  }
}

/**
 * The value of a literal as transcripts write it.
 * @param {string} literal
 * @returns {Value}
 */
export function valueOf(literal) {
  if (literal === "NULL") {
    return null;
  }
  if (literal[0] === "'") {
    return literal.slice(1, -1).replaceAll("''", "'");
  }
  return Number.isSafeInteger(Number(literal)) ? Number(literal) : BigInt(literal);
}

/**
 * A value as transcripts write it.
 * @param {Value} value
 */
export function writtenValue(value) {
  return value === null ? "NULL" : typeof value === "string" ? `'${value.replaceAll("'", "''")}'` : String(value);
}
