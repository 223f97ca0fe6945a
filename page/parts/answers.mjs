// The list of answers: a line for each statement that was executed, as the program writes it, with the beginning of its text.

import { element } from "./elements.mjs";
import { Rolling } from "./rolling.mjs";

const ROW = 26, SNIPPET = 80;
const SIGNS = { refused: "✗", fault: "!", rows: "✓", done: "✓", changed: "✓" };

/** The sign of an answer, for marks and lists. */
export const signOf = (kind) => SIGNS[kind];

export class Answers {
  /** @param {HTMLElement} box @param {(number: number) => void} onChoose */
  constructor(box, onChoose) {
    this.box = box;
    this.onChoose = onChoose;
    this.items = [];
    this.chosen = 0;
    this.rolling = new Rolling(box, ROW, (at) => this.#row(at));
    box.addEventListener("keydown", (event) => this.#key(event));
  }

  /** Shows these answers: {number, line, kind, text}. */
  show(items) {
    const isEmpty = items.length === 0;
    this.items = items;
    this.rolling.show(items.length);
    this.box.classList.toggle("empty", isEmpty);
    this.#active();
  }

  /** Marks the answer of the chosen statement. */
  choose(number) {
    this.chosen = number;
    if (number > 0 && number <= this.items.length) {
      this.rolling.reveal(number - 1);
    }
    this.rolling.draw(true);
    this.#active();
  }

  #active() {
    if (this.chosen > 0 && this.chosen <= this.items.length) {
      this.box.setAttribute("aria-activedescendant", `answer-${this.chosen}`);
    } else {
      this.box.removeAttribute("aria-activedescendant");
    }
  }

  #key(event) {
    const page = Math.max(1, Math.floor(this.box.clientHeight / ROW) - 1);
    const steps = { ArrowDown: 1, ArrowUp: -1, PageDown: page, PageUp: -page, Home: -Infinity, End: Infinity };
    if (event.key in steps && this.items.length > 0) {
      event.preventDefault();
      this.onChoose(Math.min(this.items.length, Math.max(1, (this.chosen || 0) + steps[event.key])));
    }
  }

  #row(at) {
    const { line, kind, text } = this.items[at];
    const isChosen = at + 1 === this.chosen;
    return element(
      "div",
      {
        class: `answer ${kind}`, id: `answer-${at + 1}`, role: "option", "aria-selected": String(isChosen), "aria-posinset": at + 1, "aria-setsize": this.items.length,
        onclick: () => this.onChoose(at + 1),
      },
      element("span", { class: "sign", "aria-hidden": "true" }, SIGNS[kind]),
      element("span", { class: "said" }, line.replace(/\n/g, " ")),
      element("span", { class: "snippet" }, text.slice(0, SNIPPET).replace(/\s+/g, " ")),
    );
  }
}
