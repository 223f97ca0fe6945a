// The pane of a lesson: its texts and questions, each answer behind a button, and its checks.

import { blocksOfMarkdown, inline } from "./markdown.mjs";
import { checksOf } from "./lesson.mjs";
import { element } from "./elements.mjs";

/**
 * A lesson as elements.
 * @param {import("./lesson.mjs").Note[]} notes
 * @param {{onChoose: (number: number) => void, onCheck: (box: HTMLElement) => void}} listeners
 */
export function lessonOf(notes, { onChoose, onCheck }) {
  const made = { "#": headingOf, "?": (note) => questionOf(note, onChoose), "!": answerOf };
  const parts = notes.filter((note) => note.sign in made).flatMap((note) => made[note.sign](note));
  const checks = checksOf(notes);
  return checks.length === 0 ? parts : [...parts, checkerOf(checks, onCheck)];
}

function headingOf({ lines: [first, ...rest] }) {
  return [first ? element("h2", {}, ...inline(first)) : null, ...blocksOfMarkdown(rest)].filter(Boolean);
}

function questionOf({ lines, before }, onChoose) {
  const at = before > 1 ? [" ", element("button", { class: "link", onclick: () => onChoose(before) }, `(statement ${before})`)] : [];
  const blocks = blocksOfMarkdown(lines, [element("strong", {}, "Question."), " "]);
  blocks.at(-1)?.append(...at);
  return blocks;
}

function answerOf({ lines }) {
  return [element("details", {}, element("summary", {}, "Answer"), ...blocksOfMarkdown(lines))];
}

function checkerOf(checks, onCheck) {
  const box = element("div", { class: "checks", role: "status" });
  const word = checks.length === 1 ? "1 check" : `${checks.length} checks`;
  return element("div", {}, element("button", { class: "check first", onclick: () => onCheck(box) }, "Check my script"), element("span", { class: "none" }, ` ${word}`), box);
}

const wantedOf = ({ expected, cause, name }) => (expected === "accepts" ? "has to be accepted" : `has to be refused${cause ? ` with ${cause}${name ? ` of ${name.toUpperCase()}` : ""}` : ""}`);

/** What came of the checks, as elements: passed or not; what each is about stands behind a button. */
export function resultsOf(checks, results) {
  const passed = results.filter((result) => result.isPassed).length;
  const items = results.map(({ isPassed, said }, at) => element("details", { class: isPassed ? "passed" : "failed" },
    element("summary", {}, `${isPassed ? "✓" : "✗"} Check ${at + 1} ${isPassed ? "passed" : "did not pass"}`),
    element("pre", { class: "statement-text" }, checks[at].statement), element("p", {}, `It ${wantedOf(checks[at])}; it answers: ${said}`)));
  return [element("p", {}, passed === checks.length ? "All checks passed." : `${passed} of ${checks.length} checks passed.`), ...items];
}
