// Runs scripts through sqlkeep.mjs: node page_scripts.mjs FOLDER FILE, where FOLDER has sqlkeep.wasm and sqlkeep.mjs, and FILE has a line of
// JSON for each script: {"name", "script" in base64, "depth", "changes", "explain"}. It writes a line of JSON for each: {"name", "transcript"
// or "status"}; with "explain" also "accounts", how many statements had one, and "unlike", the first whose account has other lines when it
// is written again from its objects.
import { readFileSync } from "node:fs";
import { pathToFileURL } from "node:url";

const [folder, file] = process.argv.slice(2);
const { load } = await import(pathToFileURL(`${folder}/sqlkeep.mjs`));
const { linesOf, writtenValue } = await import(pathToFileURL(`${folder}/account.mjs`));
const engine = await load(readFileSync(`${folder}/sqlkeep.wasm`));

const row = (values) => `(${values.map(writtenValue).join(", ")})`;
const REASONS = {
  condition: (entry) => `makes ${entry.condition} false (${entry.withValues})`,
  null: (entry) => `has NULL in ${entry.column}`,
  key: (entry) => `has the key of row ${entry.otherRow} ${row(entry.other)}`,
  "null key": () => "has a null in its key",
  absent: (entry) => `refers to ${entry.otherTable} ${row(entry.other)}, which isn't there`,
  "some nulls": () => "has some nulls in its key",
  restrict: (entry) => `refers to ${entry.otherTable} ${row(entry.other)}, which RESTRICT protects`,
  conflict: (entry) => `refers to ${entry.otherTable} ${row(entry.other)}, and ${entry.otherConstraint} sets ${entry.column} to ${writtenValue(entry.otherValue)}, where ${entry.constraint} sets it to ${writtenValue(entry.value)}`,
};
const change = ({ kind, table, row: number, before, after }) => `${kind} ${table} row ${number} ${row(before ?? after)}${before && after ? ` to ${row(after)}` : ""}`;

const seen = (entry) => `${entry.old ? ` OLD ${row(entry.old)}` : ""}${entry.new ? ` NEW ${row(entry.new)}` : ""}`;

// The lines of an account from its objects, by the form that docs/language/accounts.md gives.
function written(entries, indent) {
  return entries.flatMap((entry) => {
    const deeper = `${indent}  `;
    if (entry.kind === "trigger") {
      const statements = entry.statements.flatMap((each) => [`${indent}statement ${each.place}${each.changesNothing ? " changes nothing" : ""}`, ...written(each.entries, deeper)]);
      return [`${indent}trigger ${entry.trigger}${seen(entry)}`, ...entry.saw.map((each) => `${deeper}saw ${change(each)}`), ...statements];
    }
    const line = {
      skipped: () => `trigger ${entry.trigger}${seen(entry)} skipped: WHEN is ${entry.when}`,
      action: () => `${entry.constraint} ${entry.action} on ${entry.table} row ${entry.row}`,
      violation: () => `${entry.constraint}${entry.rule ? ` (${entry.rule})` : ""}: ${entry.table} row ${entry.row} ${row(entry.values)} ${REASONS[entry.reason](entry)}`,
      savepoints: () => (entry.standing.length > 0 ? `savepoints that stand: ${entry.standing.join(", ")}` : "no savepoint stands"),
      note: () => entry.text,
    }[entry.kind] ?? (() => change(entry));
    return [indent + line()];
  });
}

function accounts(script, options) {
  const session = engine.open(options);
  const bytes = Buffer.from(script, "base64"), { faultAt } = session.read(bytes);
  const { statements } = session.read(bytes.subarray(0, faultAt ?? bytes.length));
  const found = Array.from({ length: statements }, (_, at) => {
    const outcome = session.attempt(at), lines = outcome.kind === "rows" ? [] : linesOf(outcome.lines).slice(1);
    return { at: at + 1, lines, again: written(session.account, "  ") };
  }).filter(({ lines }) => lines.length > 0);
  session.close();
  return { accounts: found.length, unlike: found.find(({ lines, again }) => lines.join("\n") !== again.join("\n")) ?? null };
}

for (const line of readFileSync(file, "utf8").split("\n").filter(Boolean)) {
  const { name, script, ...options } = JSON.parse(line);
  try {
    const done = engine.run(Buffer.from(script, "base64"), options);
    const told = options.explain ? accounts(script, options) : {};
    console.log(JSON.stringify({ name, transcript: done.transcript, refused: done.refused, faultAt: done.faultAt, ...told }, (_, value) => (typeof value === "bigint" ? String(value) : value)));
  } catch (error) {
    console.log(JSON.stringify({ name, status: error.status ?? String(error) }));
  }
}
