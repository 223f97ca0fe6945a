// The shapes of a picture, each with its place.

import { units } from "./groups.mjs";

export class Sheet {
  shapes = [];
  // How many boxes of a kind stand together at most.
  most = Infinity;

  /** @param {number} characterWidth in pixels @param {import("./schema.mjs").Schema} schema names the columns */
  constructor(characterWidth, schema) {
    this.characterWidth = characterWidth;
    this.schema = schema;
  }

  /** Begins anew, with at most so many boxes of a kind together. */
  begin(most) {
    this.shapes = [];
    this.most = most;
  }

  /** Whether something isn't shown. */
  get isFolded() {
    return this.shapes.some((shape) => / folded$/.test(shape.name));
  }

  /** How wide a text is, in pixels. */
  width(text) {
    return units(text) * this.characterWidth;
  }

  #add(shape) {
    this.shapes.push(shape);
    return shape;
  }

  /** A rectangle with round corners. */
  box(x, y, w, h, name, title = null) {
    return this.#add({ kind: "box", x, y, w, h, name, title });
  }

  /** A text that begins at a place; `base` is the line on which it stands. */
  text(x, base, text, name = "") {
    return this.#add({ kind: "text", x, y: base - 13, h: 18, w: this.width(text), text, name });
  }

  /** A line that begins at a place and ends at the height `toY`. What it is made of counts from its beginning. */
  path(x, y, toY, name, d) {
    return this.#add({ kind: "path", x, y: Math.min(y, toY) - 5, h: Math.abs(toY - y) + 10, down: y - Math.min(y, toY) + 5, name, d });
  }

  /** Moves the shapes from this one on. */
  shift(first, overX, overY) {
    if (overX !== 0 || overY !== 0) {
      this.shapes.slice(first).forEach((shape) => {
        shape.x += overX;
        shape.y += overY;
      });
    }
  }
}
