// What a run shows in the list of answers and in the editor. Where other scripts ran before, their statements and characters are skipped.

import { signOf } from "./answers.mjs";

const NOTHING = { statements: 0, characters: 0 };

/** The answers with the texts of their statements, and the fault after them. */
export function itemsOf({ answers, fault, isWhole }, { text, statements }, before = NOTHING) {
  const items = answers.slice(before.statements).map((answer, at) => {
    const { at: from, end } = statements[at] ?? { at: 0, end: 0 };
    return { ...answer, line: renumbered(answer.line, at + 1), text: text.slice(from, end), at: statements[at]?.at };
  });
  if (fault && isWhole) {
    items.push({ line: `${items.length + 1} fault ${fault.byte}`, kind: "fault", pending: null, text: fault.words, at: fault.at - before.characters });
  }
  return items;
}

/** A line of an answer with this number. */
export const renumbered = (line, number) => line.replace(/^\d+/, String(number));

/** The marks of the lines in which statements begin. */
export const marksOf = (items) => items.map(({ at, kind }) => ({ at, sign: signOf(kind), name: kind === "refused" || kind === "fault" ? kind : "ok" }));

/** What is underlined: the wrong word, or the statement within which the script ends. */
export function wrongOf({ fault, isWhole }, { text }, before = NOTHING) {
  if (!fault || !isWhole) {
    return null;
  }
  const [at, end] = fault.isCut ? [fault.at, before.characters + text.length] : [fault.word.at, fault.end];
  return { at: at - before.characters, end: end - before.characters };
}
