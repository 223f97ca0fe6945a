// A list of rows of one height, of which only those that are seen are in the page.

import { element } from "./elements.mjs";
import { onPrint } from "./print.mjs";

const MARGIN = 8;

export class Rolling {
  // The rows that are in the page.
  first = 0;
  last = 0;
  #isWhole = false;

  /**
   * @param {HTMLElement} box the element that scrolls
   * @param {number} rowHeight in pixels
   * @param {(at: number) => HTMLElement} render makes the row at a place
   * @param {HTMLElement[]} head what stands above the rows
   */
  constructor(box, rowHeight, render, head = []) {
    this.box = box;
    this.rowHeight = rowHeight;
    this.render = render;
    this.count = 0;
    this.sheet = element("div", { class: "rolling", role: "presentation" });
    this.box.replaceChildren(...head, this.sheet);
    this.box.addEventListener("scroll", () => this.draw());
    onPrint(this.sheet, (isWhole) => {
      this.#isWhole = isWhole;
      this.draw(true);
    });
    new ResizeObserver(() => this.draw()).observe(this.box);
  }

  /** Shows so many rows, all of them new. */
  show(count) {
    this.count = count;
    this.sheet.style.height = `${count * this.rowHeight}px`;
    this.draw(true);
  }

  /** Makes the rows that are seen, and drops those that aren't. */
  draw(isNew = false) {
    const first = this.#isWhole ? 0 : Math.max(0, Math.floor(this.box.scrollTop / this.rowHeight) - MARGIN);
    const last = this.#isWhole ? this.count : Math.min(this.count, Math.ceil((this.box.scrollTop + this.box.clientHeight) / this.rowHeight) + MARGIN);
    if (isNew || first !== this.first || last !== this.last) {
      [this.first, this.last] = [first, last];
      this.sheet.replaceChildren(...Array.from({ length: Math.max(0, last - first) }, (_, at) => this.#row(first + at)));
    }
  }

  #row(at) {
    const row = this.render(at);
    row.style.top = `${at * this.rowHeight}px`;
    row.style.height = `${this.rowHeight}px`;
    return row;
  }

  /** Scrolls so that a row is seen. */
  reveal(at) {
    const top = at * this.rowHeight, seen = this.box.clientHeight;
    if (top < this.box.scrollTop) {
      this.box.scrollTop = top;
    } else if (top + this.rowHeight > this.box.scrollTop + seen) {
      this.box.scrollTop = top + this.rowHeight - seen;
    }
    this.draw();
  }
}
