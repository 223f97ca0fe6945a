// The pane of constraints that may wait: which are deferred, which rows violate them by now, and how that went from statement to statement.

import { writtenValue } from "../account.mjs";
import { drawing, element } from "./elements.mjs";
import { count } from "./said.mjs";

const MOST = 50, HEIGHT = 40;

/** The constraints as elements; `answers` has the number of violations after each statement. */
export function waitingOf({ catalogue, pending, number, isOpen }, answers) {
  const waiting = catalogue.constraints.filter((constraint) => constraint.isDeferrable);
  if (waiting.length === 0) {
    return [element("p", { class: "none" }, "None: each constraint is checked when a statement ends.")];
  }
  const items = waiting.map((constraint) => itemOf(constraint, pending.filter((each) => each.constraint === constraint.name), isOpen));
  const course = answers.length > 1 && answers.every((answer) => answer.pending !== null) ? [courseOf(answers, number)] : [];
  return [element("ul", { class: "waiting" }, ...items), ...course];
}

function modeOf({ isDeferred, isInitiallyDeferred }, isOpen) {
  if (!isDeferred) {
    return isInitiallyDeferred ? "immediate now, until the transaction ends" : "immediate, and may be deferred";
  }
  return isOpen || isInitiallyDeferred ? "deferred: checked at COMMIT" : "deferred";
}

const listed = (values) => `(${values.map(writtenValue).join(", ")})`;

// What is the matter with a row, as an account says it.
function matterOf({ kind, referenced, isMatchFull, condition }, { key, other }) {
  if (kind === "FOREIGN KEY") {
    return isMatchFull && key.includes(null) ? "has some nulls in its key" : `refers to ${referenced} ${listed(key)}, which isn't there`;
  }
  if (kind === "CHECK") {
    return `makes ${condition} false`;
  }
  return other === null ? "has a null in its key" : `has the key of row ${other}`;
}

function itemOf(constraint, violations, isOpen) {
  const isViolated = violations.length > 0;
  const rows = violations.slice(0, MOST).map((each) => element("li", {}, `${each.table} row ${each.row} ${each.values ? `${listed(each.values)} ` : ""}${matterOf(constraint, each)}`));
  const rest = violations.length > MOST ? [element("li", {}, `and ${count(violations.length - MOST, "row")} more`)] : [];
  return element("li", { class: isViolated ? "open" : "" },
    element("span", { class: "tick", "aria-hidden": "true" }, isViolated ? "✗" : "✓"),
    element("div", {},
      element("span", { class: "name" }, constraint.name), element("span", { class: "mode" }, ` of ${constraint.table}, ${modeOf(constraint, isOpen)}. ${isViolated ? "COMMIT would be refused:" : "Satisfied."}`),
      isViolated ? element("ul", {}, ...rows, ...rest) : null));
}

// A bar for each statement: as high as there were rows that violate a constraint that waits.
function courseOf(answers, number) {
  const most = Math.max(1, ...answers.map((answer) => answer.pending));
  const width = Math.max(2, Math.min(16, Math.floor(640 / answers.length)));
  const bars = answers.map(({ pending }, at) => {
    const height = pending === 0 ? 3 : 4 + ((HEIGHT - 8) * pending) / most;
    return drawing("rect", { x: at * width + 1, y: HEIGHT - height, width: Math.max(1, width - 2), height, class: `bar-of-course ${pending === 0 ? "none" : ""}` }, drawing("title", {}, `after statement ${at + 1}: ${count(pending, "row")}`));
  });
  const now = drawing("rect", { x: (number - 1) * width + 0.5, y: 1, width: width - 1, height: HEIGHT - 1, class: "now" });
  const label = `Rows that violate a constraint that waits, after each of ${answers.length} statements; after this one ${answers[number - 1]?.pending ?? 0}`;
  return element("div", { class: "course" },
    drawing("svg", { width: answers.length * width + 2, height: HEIGHT + 2, viewBox: `0 0 ${answers.length * width + 2} ${HEIGHT + 2}`, role: "img", "aria-label": label }, ...bars, number > 0 ? now : null),
    element("p", { class: "none" }, "Rows that wait, after each statement; the frame is this one."));
}
