// What a refusal says, in a sentence.

import { violationsOf } from "./account.mjs";

const SIGNAL = 15, DEPTH_LIMIT = 16, COMMIT_REFUSED = 19;
// The causes whose account ends with a line that says the reason.
const TOLD = [1, 2, 3, 7, 8, 9, 10, 11, DEPTH_LIMIT, 21];

/** What each cause says where no account tells more. */
export const CAUSES = {
  1: "a name names nothing",
  2: "a new name is in use, or a name comes twice where it may come once",
  3: "no database can have such a definition",
  4: "tables, constraints and triggers are made and dropped outside a transaction; COMMIT or ROLLBACK first",
  5: "no transaction is open; START TRANSACTION first",
  6: "a transaction is open already",
  7: "there is no savepoint of that name",
  8: "the constraint isn't deferrable",
  9: "the number of values isn't that of the columns, or an integer meets a text",
  10: "a result has more than 64 bits",
  11: "a text has more characters than its column holds",
  12: "a row refers to a key that was lost under RESTRICT",
  13: "a constraint is violated",
  14: "two foreign keys set one column of a row to different values",
  15: "a trigger ran SIGNAL",
  16: "the statements of triggers are nested too deep",
  17: "the statement, with all that follows from it, changes too many rows",
  18: "the transaction has too many row changes; COMMIT in between",
  19: "COMMIT found a constraint violated",
  20: "a row violates the constraint that ALTER TABLE adds",
  21: "there are more tables, columns, constraints or other things than there may be",
  22: "memory was refused",
};

/**
 * The name of the cause, what it is of, and what is the matter, as precisely as the account tells.
 * @param {import("./sqlkeep.d.ts").Refused} refused
 * @param {string[]} lines those of its account
 */
export function sentenceOf({ cause, reason, constraint, trigger, signal, row }, lines) {
  const violations = violationsOf(lines), isOwn = cause === SIGNAL || cause === DEPTH_LIMIT;
  const of = violations[0]?.constraint ?? constraint ?? (isOwn ? trigger : null);
  const inside = trigger && !isOwn ? `, in trigger ${trigger}` : "";
  return `${reason.slice(reason.indexOf(" ") + 1)}${of ? ` of ${of}` : ""}: ${signal ?? matterOf(cause, row, violations, lines)}${inside}`;
}

function matterOf(cause, row, violations, lines) {
  if (violations.length > 0) {
    const more = violations.length - 1, others = more > 0 ? `, and ${more} more violation${more > 1 ? "s" : ""}` : "";
    return `${violations[0].matter}${others}${cause === COMMIT_REFUSED ? "; the transaction is rolled back" : ""}`;
  }
  if (TOLD.includes(cause) && lines.length > 0) {
    return lines.at(-1).trimStart();
  }
  return row === null ? CAUSES[cause] : `row ${row}: ${CAUSES[cause]}`;
}
