// Draws the shapes of a sheet as SVG: those alone that are in the part that is seen.

import { drawing } from "./elements.mjs";
import { onPrint } from "./print.mjs";

const MARGIN = 200, HIGHEST = 3000;

/** How small a picture may be made so that it fits. */
export const LEAST_SCALE = 0.85;

/** How wide a character of a picture is, in pixels. */
export function characterWidth(root = document.body) {
  const probe = drawing("text", {}, "0".repeat(100));
  const svg = drawing("svg", { class: "probe", width: 10, height: 10 }, probe);
  root.append(svg);
  const width = probe.getComputedTextLength() / 100;
  svg.remove();
  return width || 7.3;
}

const makers = {
  box: ({ x, y, w, h, name, title }) => drawing("rect", { x, y, width: Math.max(0, w), height: Math.max(0, h), rx: 5, class: name }, title ? drawing("title", {}, title) : null),
  text: ({ x, y, text, name }) => drawing("text", { x, y: y + 13, class: name || null }, text),
  path: ({ x, y, down, d, name }) => drawing("path", { d, class: name, transform: `translate(${x} ${y + down})` }),
};

export class Picture {
  #shapes = [];
  #frame = 0;
  #size = { width: 0, height: 0 };
  #scale = 1;

  /** @param {HTMLElement} box the element that scrolls */
  constructor(box) {
    this.box = box;
    this.svg = drawing("svg", { role: "img" });
    this.sheet = document.createElement("div");
    this.sheet.className = "sheet-of-picture";
    this.sheet.append(this.svg);
    box.addEventListener("scroll", () => this.#soon());
    onPrint(this.sheet, (isWhole) => this.draw(isWhole));
    new ResizeObserver(() => this.#soon()).observe(box);
  }

  /** Shows these shapes in a picture of this size. `label` says in words what is to be seen. */
  show(shapes, size, room, label) {
    this.#shapes = shapes;
    this.#size = size;
    this.#scale = Math.min(1, Math.max(LEAST_SCALE, room / size.width));
    const [width, height] = [size.width * this.#scale, size.height * this.#scale];
    this.svg.setAttribute("aria-label", label);
    this.sheet.style.width = `${Math.floor(width)}px`;
    this.sheet.style.height = `${Math.ceil(height)}px`;
    this.box.replaceChildren(this.sheet);
    this.box.classList.toggle("high", height > HIGHEST);
    // What scrolls can be reached by the keyboard.
    if (width > room + 1 || height > HIGHEST) {
      this.box.setAttribute("tabindex", "0");
    } else {
      this.box.removeAttribute("tabindex");
    }
    this.draw();
  }

  clear() {
    this.#shapes = [];
    this.box.replaceChildren();
    this.box.removeAttribute("tabindex");
  }

  #soon() {
    cancelAnimationFrame(this.#frame);
    this.#frame = requestAnimationFrame(() => this.draw());
  }

  /** Makes the shapes that are seen, or all of them. */
  draw(isWhole = false) {
    const [width, height] = [this.#size.width, this.#size.height];
    const top = isWhole ? 0 : Math.max(0, this.box.scrollTop / this.#scale - MARGIN);
    const bottom = isWhole ? height : Math.min(height, (this.box.scrollTop + this.box.clientHeight) / this.#scale + MARGIN);
    const seen = this.#shapes.filter((shape) => shape.y + shape.h >= top && shape.y <= bottom);
    const attributes = { width: width * this.#scale, height: Math.max(0, bottom - top) * this.#scale, viewBox: `0 ${top} ${width} ${Math.max(0, bottom - top)}` };
    Object.entries(attributes).forEach(([name, value]) => this.svg.setAttribute(name, value));
    this.svg.style.top = `${top * this.#scale}px`;
    this.svg.replaceChildren(...seen.map((shape) => makers[shape.kind](shape)));
  }
}
