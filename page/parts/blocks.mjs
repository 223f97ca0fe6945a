// The entries of an account as waves of changes, triggers with their statements, and violations.

/**
 * @typedef {{before: Run[], changes: object[], actions: object[]}} Wave `before` has the BEFORE triggers, `actions` what follows from the changes
 * @typedef {{trigger: string, old: any[] | null, new: any[] | null, saw: object[], statements: {place: number, changesNothing?: true, blocks: Blocks}[], when?: string, signal?: string}} Run one
 *     that is skipped has in `when` the truth of its WHEN, one that refused in `signal` the text of its SIGNAL
 * @typedef {{waves: Wave[], triggers: Run[], violations: object[], notes: string[]}} Blocks
 */

const CHANGES = ["insert", "delete", "update"];

/** The runs within which an account ends, the outermost first. */
export function lastRuns(blocks) {
  const run = [...blocks.waves.flatMap((wave) => wave.before), ...blocks.triggers].findLast((each) => !each.when);
  return run ? [run, ...(run.statements.length > 0 ? lastRuns(run.statements.at(-1).blocks) : [])] : [];
}

// A violation of a key with the row first that was written, and the one that was there second.
function newestFirst(violation, changes) {
  const isNew = (row) => changes.some((change) => change.table === violation.table && change.row === row);
  if (violation.reason !== "key" || isNew(violation.row) || !isNew(violation.otherRow)) {
    return violation;
  }
  return { ...violation, row: violation.otherRow, values: violation.other, otherRow: violation.row, other: violation.values };
}

/**
 * The blocks of an account.
 * @param {object[]} entries as entriesOf gives them
 * @param {{table: string, row: number}[]} written the rows that were written
 * @returns {Blocks}
 */
export function blocksOf(entries, written = []) {
  const blocks = { waves: [], triggers: [], violations: [], notes: [] };
  for (const entry of entries) {
    if (CHANGES.includes(entry.kind)) {
      waveFor(blocks).changes.push(entry);
    } else if (entry.kind === "action") {
      blocks.waves.at(-1)?.actions.push(entry);
    } else if (entry.kind === "trigger") {
      blocks.triggers.push({ ...entry, statements: entry.statements.map(({ place, entries: inner, changesNothing }) => ({ place, changesNothing, blocks: blocksOf(inner, written) })) });
    } else if (entry.kind === "skipped") {
      blocks.triggers.push({ ...entry, saw: [], statements: [] });
    } else if (entry.kind === "violation") {
      placeViolation(blocks.violations, newestFirst(entry, written));
    } else if (entry.kind === "savepoints") {
      blocks.notes.push(entry.standing.length > 0 ? `savepoints that stand: ${entry.standing.join(", ")}` : "no savepoint stands");
    } else {
      blocks.notes.push(entry.text ?? "");
    }
  }
  return blocks;
}

// Two rows with one key violate it both: the pair is told once.
function placeViolation(violations, violation) {
  const isTold = violation.reason === "key" && violations.some((each) => each.constraint === violation.constraint && each.row === violation.row && each.otherRow === violation.otherRow);
  if (!isTold) {
    violations.push(violation);
  }
}

// The wave that a change belongs to: a new one after actions. Triggers that ran since then see its rows before they are stored.
function waveFor(blocks) {
  const last = blocks.waves.at(-1);
  if (last && last.actions.length === 0 && blocks.triggers.length === 0) {
    return last;
  }
  blocks.waves.push({ before: blocks.triggers, changes: [], actions: [] });
  blocks.triggers = [];
  return blocks.waves.at(-1);
}

const MANY = 64;

/**
 * From which changes of a wave a foreign key reached which rows: one link for each box with a changed row that lost a key, or one for the
 * foreign key where there are very many.
 * @param {Wave} wave
 * @param {Wave | undefined} next
 * @param {import("./schema.mjs").Schema} schema
 * @param {(change: object) => any} boxOf the box that a change stands in
 * @returns {{constraint: string, action: string, sources: object[], targets: {table: string, row: number}[]}[]}
 */
export function linksOf(wave, next, schema, boxOf) {
  const places = new Map((next?.changes ?? []).map((change) => [`${change.table} ${change.row}`, change]));
  const finders = new Map();
  const found = wave.actions.map((action) => {
    if (!finders.has(action.constraint)) {
      finders.set(action.constraint, sourceFinder(wave, action.constraint, schema));
    }
    const target = places.get(`${action.table} ${action.row}`);
    return { ...action, source: finders.get(action.constraint)(target?.before ?? null) };
  });
  return gathered(found, boxOf);
}

function gathered(found, boxOf) {
  const sources = new Map(), numbers = new Map();
  const numberOf = (source) => {
    const box = source && boxOf(source);
    numbers.set(box, numbers.get(box) ?? numbers.size);
    return numbers.get(box);
  };
  found.forEach(({ constraint, action, source }) => {
    const name = `${constraint} ${action}`;
    sources.set(name, (sources.get(name) ?? new Set()).add(numberOf(source)));
  });
  const links = new Map();
  found.forEach(({ constraint, action, source, table, row }) => {
    const name = `${constraint} ${action}`;
    const key = sources.get(name).size > MANY ? name : `${name} ${numberOf(source)}`;
    const link = links.get(key) ?? { constraint, action, sources: new Set(), targets: [] };
    link.targets.push({ table, row });
    links.set(key, source ? { ...link, sources: link.sources.add(source) } : link);
  });
  return [...links.values()].map((link) => ({ ...link, sources: [...link.sources] }));
}

// A function from the values of a row that refers to the change that took the key away: of several the one with the least row number.
function sourceFinder(wave, name, schema) {
  const constraint = schema.constraints.get(name);
  if (!constraint?.referenced) {
    return () => null;
  }
  const own = schema.places(constraint.table, constraint.columns);
  const referred = schema.places(constraint.referenced, constraint.referencedColumns);
  const lost = new Map();
  wave.changes.filter((change) => change.table === constraint.referenced && change.before).forEach((change) => {
    const key = keyOf(change.before, referred);
    const first = lost.get(key);
    const isLost = !change.after || keyOf(change.after, referred) !== key;
    if (isLost && (!first || change.row < first.row)) {
      lost.set(key, change);
    }
  });
  return (values) => (values ? lost.get(keyOf(values, own)) ?? null : null);
}

const keyOf = (values, places) => JSON.stringify(places.map((place) => (typeof values[place] === "bigint" ? `${values[place]}n` : values[place])));
