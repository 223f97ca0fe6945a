// What each cause of a refusal means, in a sentence.

import { CAUSES } from "../refusal.mjs";

/** What a refusal means, and what it left behind. */
export function meaningOf(answer) {
  const meaning = CAUSES[answer.cause];
  const left = answer.cause === 19 ? "All that the transaction did is taken back." : "The statement changed nothing.";
  return `${meaning[0].toUpperCase()}${meaning.slice(1)}. ${left}`;
}
