// What a caller gives, tested before anything is made of it: nothing is changed on its way to the engine. And bytes as texts and places.

const OPTIONS = { depth: 16, changes: 65536, explain: false };
const decoder = () => new TextDecoder("utf-8", { ignoreBOM: true });

/** A value in the words of an error. */
const shown = (value) => (["number", "bigint", "boolean"].includes(typeof value) || value === null ? String(value) : `a value of type ${typeof value}`);

/**
 * The bytes of a text; a copy, which nobody else changes.
 * @param {string | Uint8Array} text
 */
export function testedText(text) {
  if (text instanceof Uint8Array) {
    return Uint8Array.from(text);
  }
  if (typeof text !== "string") {
    throw new TypeError(`a text is a string or a Uint8Array, not ${shown(text)}`);
  }
  if (/\p{Surrogate}/u.test(text)) {
    throw new TypeError("a text has half of a character");
  }
  return new TextEncoder().encode(text);
}

/** The text of bytes that the engine wrote, or that were tested. */
export const textOf = (bytes) => decoder().decode(bytes);

/** The text of parts that may end within a character: the last part is empty. */
export function textOfParts(parts) {
  const one = decoder();
  let whole = "";
  for (const part of parts) {
    whole += one.decode(part, { stream: true });
  }
  return whole + one.decode();
}

/** The line and the column, in characters, of a byte of a text, from 1. */
export function placeIn(bytes, byte) {
  const before = bytes.subarray(0, byte), start = before.lastIndexOf(10) + 1;
  return { line: before.filter((each) => each === 10).length + 1, column: before.subarray(start).filter((each) => (each & 0xc0) !== 0x80).length + 1 };
}

/** A place or a number of statements as the engine takes it. */
export function testedNumber(value) {
  if (typeof value === "bigint" ? BigInt.asUintN(64, value) !== value : !Number.isSafeInteger(value) || value < 0) {
    throw new TypeError(`a place is a whole number from 0, not ${shown(value)}`);
  }
  return BigInt(value);
}

/** The values for question marks, as they are bound; undefined where none are given. */
export function testedValues(values) {
  if (values !== undefined && !Array.isArray(values)) {
    throw new TypeError(`the values are an array, not ${shown(values)}`);
  }
  return values && Array.from(values, testedValue);
}

// A number has to be exact, and a text to be UTF-16.
function testedValue(value) {
  if (value === null) {
    return null;
  }
  if (typeof value === "string") {
    return testedText(value);
  }
  if (typeof value !== "bigint" && !Number.isSafeInteger(value)) {
    throw new TypeError(`${shown(value)} is none: null, an exact integer, a BigInt or a string is one`);
  }
  const integer = BigInt(value);
  if (BigInt.asIntN(64, integer) !== integer) {
    throw new RangeError(`${integer} has more than 64 bits`);
  }
  return integer;
}

/** The options of a session, each with its value. Whether a limit is in its range is the engine's matter. */
export function testedOptions(options) {
  if (typeof options !== "object" || options === null) {
    throw new TypeError(`the options are an object, not ${shown(options)}`);
  }
  const unknown = Object.keys(options).find((name) => !Object.hasOwn(OPTIONS, name));
  if (unknown !== undefined) {
    throw new TypeError(`there is no option ${JSON.stringify(unknown)}: the options are depth, changes and explain`);
  }
  const found = Object.fromEntries(Object.entries(OPTIONS).map(([name, usual]) => [name, options[name] === undefined ? usual : options[name]]));
  for (const name of ["depth", "changes"]) {
    if (!Number.isSafeInteger(found[name])) {
      throw new TypeError(`${name} is a whole number, not ${shown(found[name])}`);
    }
  }
  return { ...found, explain: testedFlag(found.explain) };
}

/** Whether accounts are asked for. */
export function testedFlag(explain) {
  if (typeof explain !== "boolean") {
    throw new TypeError(`explain is true or false, not ${shown(explain)}`);
  }
  return explain;
}
