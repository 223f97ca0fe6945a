// Lessons: texts, questions, answers and checks in comments of a script. docs/library/page.md has their form.

import { statementsOf, tokensOf } from "./tokens.mjs";

/**
 * @typedef {{expected: "accepts" | "refuses", cause: string | null, name: string | null, statement: string}} Check
 * @typedef {{sign: string, lines: string[], before: number}} Note `before` is the number of the statement before which it stands
 */

const NOTE = /^--([#?!@])(?: (.*))?$/;
const CHECK = /^(accepts|refuses)(?: (\w+))?(?: (\w+))?: *(.*)$/i;

/**
 * The notes of a text, and what is left of it.
 * @returns {{script: string, notes: Note[]}}
 */
export function partsOf(text) {
  const tokens = tokensOf(text), statements = statementsOf(tokens);
  const found = tokens.filter((token) => token.kind === "comment" && NOTE.test(trimmed(text, token)) && /(^|\n)[ \t]*$/.test(text.slice(Math.max(0, token.at - 200), token.at)));
  const notes = [];
  let script = "", from = 0;
  for (const token of found) {
    const begin = text.lastIndexOf("\n", token.at) + 1, end = text[token.end] === "\n" ? token.end + 1 : token.end;
    const [, sign, words = ""] = NOTE.exec(trimmed(text, token)), last = notes.at(-1);
    const before = statements.filter((statement) => statement.at < token.at).length + 1;
    script += text.slice(from, begin);
    if (last && last.sign === sign && last.end === begin) {
      Object.assign(last, { lines: [...last.lines, words], end });
    } else {
      notes.push({ sign, lines: [words], before, end });
    }
    from = end;
  }
  return { script: script + text.slice(from), notes: notes.map(({ sign, lines, before }) => ({ sign, lines, before })) };
}

const trimmed = (text, token) => text.slice(token.at, token.end).trimEnd();

/** A script with its notes: each stands above the statement that it stood before, or at the end where there are fewer. */
export function joined(script, notes) {
  if (notes.length === 0) {
    return script;
  }
  const statements = statementsOf(tokensOf(script));
  const placeOf = ({ before }) => (before === 1 ? 0 : statements[before - 1] ? script.lastIndexOf("\n", statements[before - 1].at) + 1 : script.length);
  let text = "", from = 0;
  for (const note of notes) {
    const place = Math.max(from, placeOf(note)), part = script.slice(from, place);
    text += part + ((text + part).endsWith("\n") || text + part === "" ? "" : "\n") + note.lines.map((line) => `--${note.sign} ${line}`.trimEnd() + "\n").join("");
    from = place;
  }
  return text + script.slice(from);
}

/** The checks of notes: statements that have to be accepted or refused. A line that begins with neither goes on with the one before. */
export function checksOf(notes) {
  const checks = [];
  for (const line of notes.filter((note) => note.sign === "@").flatMap((note) => note.lines)) {
    const found = CHECK.exec(line);
    if (found) {
      const [, expected, cause, name, statement] = found;
      checks.push({ expected: expected.toLowerCase(), cause: cause ?? null, name: name ?? null, statement });
    } else if (checks.length > 0) {
      checks.at(-1).statement += `\n${line}`;
    }
  }
  return checks;
}

/** Whether an outcome is what a check expects. */
export function isAsExpected({ expected, cause, name }, outcome) {
  if (outcome.kind !== "refused" || expected === "accepts") {
    return (outcome.kind === "refused") === (expected === "refuses");
  }
  const isSame = (wanted, found) => wanted === null || wanted.toUpperCase() === (found ?? "").toUpperCase();
  return isSame(cause, outcome.reason.split(" ")[1]) && isSame(name, outcome.constraint ?? outcome.trigger);
}
