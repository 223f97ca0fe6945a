// The editor: a textarea with transparent text, over lines with numbers, marks and colours.

import { element } from "./elements.mjs";
import { indented } from "./indent.mjs";
import { onPrint } from "./print.mjs";
import { statementsOf, tokensOf } from "./tokens.mjs";

const LONG = 60000, DELAY = 200, MANY = 1500, LINE = 20, PADDING = 8, MARGIN = 10;
const escaped = (text) => text.replace(/[&<>]/g, (sign) => ({ "&": "&amp;", "<": "&lt;", ">": "&gt;" })[sign]);

/**
 * The lines of a part of a text as HTML, with tokens in colour.
 * @param {string} text
 * @param {{kind: string, at: number, end: number}[]} tokens those of the part
 * @param {{at: number, end: number, name: string}[]} ranges what is marked besides
 * @param {{from: number, to: number}} part
 */
export function colouredLines(text, tokens, ranges, { from: first, to: last }) {
  const lines = [""];
  const cuts = ranges.flatMap((range) => [range.at, range.end]);
  const put = (from, to, kind) => {
    const name = [kind, ...ranges.filter((range) => from >= range.at && to <= range.end).map((range) => range.name)].filter(Boolean).join(" ");
    text.slice(from, to).split("\n").forEach((part, at) => {
      if (at > 0) {
        lines.push("");
      }
      lines[lines.length - 1] += part && name ? `<span class="${name}">${escaped(part)}</span>` : escaped(part);
    });
  };
  const emit = (from, to, kind) => {
    const places = [Math.max(from, first), ...cuts.filter((cut) => cut > from && cut < to).sort((one, other) => one - other), Math.min(to, last)];
    places.slice(1).forEach((place, at) => place > places[at] && put(places[at], place, kind));
  };
  const end = tokens.reduce((before, token) => {
    emit(before, token.at, "");
    emit(token.at, token.end, ["name", "symbol"].includes(token.kind) ? "" : token.kind);
    return token.end;
  }, first);
  emit(end, last, "");
  return lines;
}

// The place in a list, sorted by `of`, of the first element that isn't less.
function placeIn(list, value, of = (each) => each) {
  let [low, high] = [0, list.length];
  while (low < high) {
    const middle = (low + high) >> 1;
    [low, high] = of(list[middle]) < value ? [middle + 1, high] : [low, middle];
  }
  return low;
}

export class Editor {
  #keys = [];
  #marks = new Map();
  #chosen = null;
  #fault = null;
  #place = 0;
  #timer = 0;
  #isIndenting = false;

  /**
   * @param {HTMLElement} box
   * @param {{onChange: () => void, onCaret: (number: number) => void, onIndenting: (isIndenting: boolean) => void}} listeners
   */
  constructor(box, listeners) {
    this.listeners = listeners;
    this.lines = element("pre", { class: "lines", "aria-hidden": "true" });
    this.area = element("textarea", {
      id: "script", "aria-label": "Script in SQL", spellcheck: "false", autocapitalize: "off", autocomplete: "off",
      oninput: () => this.#changed(), onkeydown: (event) => this.#key(event), onkeyup: () => this.#caret(), onclick: () => this.#caret(),
    });
    this.sheet = element("div", { class: "sheet" }, this.lines, this.area);
    box.append(this.sheet);
    this.box = box;
    box.addEventListener("scroll", () => this.isLong && this.draw());
    new ResizeObserver(() => this.isLong && this.draw()).observe(box);
    onPrint(this.lines, (isWhole) => this.isLong && this.draw(isWhole));
    this.#read();
  }

  get text() {
    return this.area.value;
  }

  set text(text) {
    this.area.value = text;
    this.area.setSelectionRange(0, 0);
    this.box.scrollTop = 0;
    this.#forget();
    this.#read();
    this.draw();
  }

  /** What is selected. */
  get selected() {
    return this.text.slice(this.area.selectionStart, this.area.selectionEnd);
  }

  #forget() {
    this.#chosen = null;
    this.#fault = null;
    this.#marks = new Map();
  }

  /** The number of the statement at the caret, from 1; 0 where there is none. */
  get statementAtCaret() {
    return this.statements.findLastIndex((statement) => statement.at <= this.area.selectionStart) + 1;
  }

  /** Marks statements: a sign and a class for the line in which each begins; and what is wrong, by its places. */
  mark(marks, fault) {
    this.#fault = fault;
    this.#marks = new Map(marks.filter(({ at }) => at !== undefined).map(({ at, sign, name }) => [this.#lineOf(at), { sign, name }]));
    this.draw();
  }

  /** Marks one statement as the chosen one, and scrolls to it. */
  choose(number, isScrolled = true) {
    this.#place = this.area.selectionStart;
    this.#chosen = this.statements[number - 1] ?? null;
    this.draw();
    if (this.#chosen && isScrolled) {
      const line = this.#lineOf(this.#chosen.at), top = this.isLong ? line * LINE : this.lines.children[line].offsetTop, seen = this.box.clientHeight;
      if (top < this.box.scrollTop || top + 2 * LINE > this.box.scrollTop + seen) {
        // A whole line stands at the top.
        this.box.scrollTop = top < seen / 3 ? 0 : Math.round((top - seen / 3) / LINE) * LINE + PADDING;
      }
    }
  }

  // The line of a place of the text, from 0.
  #lineOf(at) {
    return placeIn(this.ends, at);
  }

  // Lines of a long script aren't wrapped, so that they have one height, and only those that are seen are made.
  #read() {
    this.tokens = tokensOf(this.text);
    this.statements = statementsOf(this.tokens);
    this.ends = [...this.text.matchAll(/\n/g)].map((found) => found.index);
    if (this.isLong !== this.ends.length > MANY) {
      this.#keys = [];
      this.lines.replaceChildren();
    }
    this.isLong = this.ends.length > MANY;
    this.box.classList.toggle("long", this.isLong);
    const longest = this.isLong ? this.ends.reduce((most, end, at) => Math.max(most, end - (this.ends[at - 1] ?? 0)), 0) : 0;
    this.sheet.style.cssText = this.isLong ? `height:${(this.ends.length + 1) * LINE + 2 * PADDING}px;width:calc(${longest + 8}ch + 70px)` : "";
  }

  #changed() {
    this.#forget();
    this.listeners.onChange();
    clearTimeout(this.#timer);
    const again = () => {
      this.#read();
      this.draw();
    };
    if (this.text.length > LONG) {
      this.#timer = setTimeout(again, DELAY);
    } else {
      again();
    }
  }

  // Tab leaves the editor, as everywhere, until Ctrl-M says that it indents; Escape takes that back.
  #key(event) {
    const isSwitch = event.ctrlKey && event.key === "m", isLeaving = event.key === "Escape" && this.#isIndenting;
    if (isSwitch || isLeaving) {
      event.preventDefault();
      this.#isIndenting = isSwitch && !this.#isIndenting;
      this.listeners.onIndenting(this.#isIndenting);
    } else if (event.key === "Tab" && this.#isIndenting) {
      event.preventDefault();
      this.#indent(event.shiftKey);
    }
  }

  #indent(isBack) {
    const { selectionStart: from, selectionEnd: to } = this.area, change = indented(this.text, from, to, isBack);
    const added = change.text.length - (change.to - change.from);
    this.area.setSelectionRange(change.from, change.to);
    // The one way that undo knows of.
    document.execCommand(change.text === "" ? "delete" : "insertText", false, change.text);
    this.area.setSelectionRange(from === to ? Math.max(change.from, from + added) : change.from, to + added);
  }

  // A key that doesn't move the caret chooses nothing.
  #caret() {
    if (this.area.selectionStart !== this.#place) {
      this.#place = this.area.selectionStart;
      this.listeners.onCaret(this.statementAtCaret);
    }
  }

  #ranges() {
    return [...(this.#chosen ? [{ ...this.#chosen, name: "chosen" }] : []), ...(this.#fault ? [{ ...this.#fault, name: "faulty" }] : [])];
  }

  /** Makes the lines that changed anew; of a long script those that are seen. */
  draw(isWhole = !this.isLong) {
    const first = !isWhole ? Math.max(0, Math.floor(this.box.scrollTop / LINE) - MARGIN) : 0;
    const last = !isWhole ? Math.min(this.ends.length, first + Math.ceil(this.box.clientHeight / LINE) + 2 * MARGIN) : this.ends.length;
    const part = { from: first === 0 ? 0 : this.ends[first - 1] + 1, to: this.ends[last] ?? this.text.length };
    const tokens = this.isLong ? this.tokens.slice(placeIn(this.tokens, part.from, (token) => token.end), placeIn(this.tokens, part.to, (token) => token.at)) : this.tokens;
    this.#drawLines(colouredLines(this.text, tokens, this.#ranges(), part), first);
    this.lines.style.top = this.isLong ? `${first * LINE}px` : "";
  }

  #drawLines(html, first) {
    const keys = html.map((line, at) => [first + at, this.#marks.get(first + at)?.name, line].join("|"));
    const old = this.#keys, least = Math.min(old.length, keys.length);
    // Lines that only have another number are kept.
    const same = (one, other) => one.slice(one.indexOf("|")) === other.slice(other.indexOf("|"));
    let front = 0, back = 0;
    while (front < least && same(old[front], keys[front])) {
      front++;
    }
    while (back < least - front && same(old.at(-1 - back), keys.at(-1 - back))) {
      back++;
    }
    this.#replace(front, old.length - back, html.slice(front, html.length - back), first);
    this.#number(first, keys.length === old.length && keys[0]?.split("|")[0] === old[0]?.split("|")[0] ? front : 0);
    this.#keys = keys;
  }

  #replace(from, to, html, first) {
    const made = html.map((line, at) => {
      const mark = this.#marks.get(first + from + at);
      const made = element("div", { class: `line ${mark?.name ?? ""}`, "data-mark": mark?.sign ?? null });
      made.innerHTML = line || "\u200b";
      return made;
    });
    const range = document.createRange();
    range.setStart(this.lines, from);
    range.setEnd(this.lines, to);
    range.deleteContents();
    const next = this.lines.children[from] ?? null;
    const all = document.createDocumentFragment();
    all.append(...made);
    this.lines.insertBefore(all, next);
  }

  #number(first, from) {
    [...this.lines.children].slice(from).forEach((line, at) => {
      line.dataset.number = first + from + at + 1;
    });
  }
}
