// The script that was typed last: the browser keeps it until the page is opened again.

import { isScript } from "./share.mjs";

const NAME = "sqlkeep.script", LATER_MS = 300;

export class Kept {
  /** @type {string | null} what is to be kept and isn't yet */
  #script = null;
  #isLost = false;

  constructor() {
    addEventListener("pagehide", () => this.#write());
    // The browser asks before it leaves a script that it could not keep.
    addEventListener("beforeunload", (event) => {
      this.#write();
      if (this.#isLost) {
        event.preventDefault();
      }
    });
  }

  /** Keeps a script, a moment after its last letter was typed. */
  put(script) {
    this.#script = script;
    clearTimeout(this.timer);
    this.timer = setTimeout(() => this.#write(), LATER_MS);
  }

  // A browser may have no storage, or no room in it: then nothing is kept.
  #write() {
    if (this.#script === null) {
      return;
    }
    try {
      localStorage.setItem(NAME, this.#script);
      this.#isLost = false;
    } catch {
      this.#isLost = true;
    } finally {
      this.#script = null;
    }
  }

  /** The script that was kept, null where there is none. */
  get script() {
    try {
      const found = localStorage.getItem(NAME);
      return found && isScript(found) ? found : null;
    } catch {
      return null;
    }
  }
}
