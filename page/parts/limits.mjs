// The two limits of a session, as the page's fields have them.

import { byId } from "./elements.mjs";

const FIELDS = { depth: { usual: 16, most: 64, words: "The depth of triggers" }, changes: { usual: 65536, most: 65536, words: "The number of row changes" } };

export class Limits {
  #set = { depth: FIELDS.depth.usual, changes: FIELDS.changes.usual };

  /** @param {(fault: string | null) => void} onChange hears of a change, or why a value was put back */
  constructor(onChange) {
    Object.keys(FIELDS).forEach((name) => byId(name).addEventListener("change", () => onChange(this.#take(name))));
  }

  #take(name) {
    const text = byId(name).value, number = Number(text);
    if (/^\d+$/.test(text) && isLimit(name, number)) {
      this.#set[name] = number;
      return null;
    }
    byId(name).value = this.#set[name];
    return `${FIELDS[name].words} is a number from 1 to ${FIELDS[name].most.toLocaleString("en")}.`;
  }

  /** The limits, as a session is opened with them. */
  get options() {
    return { ...this.#set };
  }

  /** Those that aren't the usual ones. */
  get unusual() {
    return Object.fromEntries(Object.entries(this.#set).filter(([name, value]) => value !== FIELDS[name].usual));
  }

  /** Takes these limits, and the usual ones for what isn't there. */
  set(limits = {}) {
    Object.keys(FIELDS).forEach((name) => {
      this.#set[name] = limits[name] ?? FIELDS[name].usual;
      byId(name).value = this.#set[name];
    });
  }
}

/** Whether a number may be the limit of this name. */
export function isLimit(name, number) {
  return name in FIELDS && Number.isInteger(number) && number >= 1 && number <= FIELDS[name].most;
}
