// The list of scripts: the tour, the pages of the language, and those of one's own.

import { element } from "./elements.mjs";

const OWN = "your script";

// The statements of the tour's scripts that show most.
const SHOWN_FIRST = { first: 6, nulls: 6, transactions: 8, keys: 6, references: 6, cascades: 11, rings: 10, savepoints: 8, guards: 11, logs: 11, authors: 8 };

export class Examples {
  /**
   * @param {HTMLSelectElement} list
   * @param {{label: string, examples: {name: string, title: string, script: string, limits?: object}[]}[]} groups
   */
  constructor(list, groups) {
    this.list = list;
    this.groups = groups;
    /** @type {{name: string, title: string, script: string, limits?: object}[]} */
    this.own = [];
    this.#fill();
  }

  /** The name of the first script of all. */
  get first() {
    return this.groups[0].examples[0].name;
  }

  get chosen() {
    return this.list.value;
  }

  get isOwn() {
    return this.own.some((example) => example.name === this.chosen);
  }

  /** Whether the page brings a script of this name. */
  isBrought(name) {
    return !this.own.some((example) => example.name === name) && this.find(name) !== null;
  }

  find(name) {
    return [...this.own, ...this.groups.flatMap((group) => group.examples)].find((example) => example.name === name) ?? null;
  }

  /** The statement to be shown first, if one is better than others. */
  shownFirst(name) {
    return SHOWN_FIRST[name];
  }

  // Makes the list anew. What is chosen stays so.
  #fill() {
    const chosen = this.list.value;
    const option = (example, at) => element("option", { value: example.name }, `${at + 1} ${example.title}`);
    const groups = this.groups.map((group) => element("optgroup", { label: group.label }, ...group.examples.map(option)));
    this.list.replaceChildren(...this.own.map((example) => element("option", { value: example.name }, example.name)), ...groups);
    this.list.value = chosen || this.first;
  }

  choose(name) {
    this.list.value = name;
  }

  /** Adds a script of one's own where there is none like it; its name. */
  add(script) {
    return this.own.find((example) => example.script === script)?.name ?? this.#new(script);
  }

  #new(script) {
    const name = this.own.length === 0 ? OWN : `${OWN} ${this.own.length + 1}`;
    this.own.push({ name, title: name, script });
    this.#fill();
    return name;
  }

  /** Keeps what was typed: in the script of one's own that is chosen, or in a new one. */
  keep(script) {
    const chosen = this.own.find((example) => example.name === this.chosen);
    if (chosen) {
      chosen.script = script;
    } else {
      this.choose(this.#new(script));
    }
  }
}
