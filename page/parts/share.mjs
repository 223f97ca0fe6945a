// A script in an address: compressed, in base64 with the letters that an address may have.

import { isLimit } from "./limits.mjs";

const MOST_BYTES = 1 << 20;
// A byte of deflate makes at most 1,032 bytes, and a stream makes all of a part before it is asked.
const PART = 1024;

async function through(stream, bytes) {
  const writer = stream.writable.getWriter();
  writer.write(bytes).catch(() => {});
  writer.close().catch(() => {});
  return new Uint8Array(await new Response(stream.readable).arrayBuffer());
}

// What was compressed, made part by part: no more of it than a script may have.
async function inflated(bytes) {
  const { readable, writable } = new DecompressionStream("deflate-raw"), writer = writable.getWriter(), reader = readable.getReader();
  const feed = async () => {
    for (let at = 0; at < bytes.length; at += PART) {
      await writer.write(bytes.subarray(at, at + PART));
    }
    await writer.close();
  };
  feed().catch(() => {});
  const parts = [];
  let length = 0;
  for (let part = await reader.read(); !part.done; part = await reader.read()) {
    parts.push(part.value);
    length += part.value.length;
    if (length > MOST_BYTES) {
      await reader.cancel().catch(() => {});
      throw new TextFault("the script is longer than 1,048,576 bytes");
    }
  }
  return new Uint8Array(await new Blob(parts).arrayBuffer());
}

/** Bytes out of base64. */
export function bytesOf(base64) {
  const characters = atob(base64), bytes = new Uint8Array(characters.length);
  for (let at = 0; at < bytes.length; at++) {
    bytes[at] = characters.charCodeAt(at);
  }
  return bytes;
}

/** Bytes that were compressed by gzip, as they were. */
export const unzipped = (bytes) => through(new DecompressionStream("gzip"), bytes);

/** The part of an address that holds a script, the statement that is chosen, and unusual limits. */
export async function addressOf(script, number, limits) {
  const bytes = await through(new CompressionStream("deflate-raw"), new TextEncoder().encode(script));
  const characters = Array.from(bytes, (byte) => String.fromCharCode(byte)).join("");
  const coded = btoa(characters).replaceAll("+", "-").replaceAll("/", "_").replace(/=+$/, "");
  const rest = Object.entries({ n: number || undefined, ...limits }).filter(([, value]) => value !== undefined).map(([name, value]) => `&${name}=${value}`);
  return `#s=${coded}${rest.join("")}`;
}

/**
 * What an address holds: a script, or the name of one that the page brings, with the statement and the limits; null where it holds none.
 * It throws where the script can't be read.
 */
export async function scriptOf(address) {
  const text = address.replace(/^#/, ""), words = new URLSearchParams(text);
  const number = Number(/^\d{1,6}$/.exec(words.get("n") ?? "")?.[0] ?? 0);
  const limits = Object.fromEntries(["depth", "changes"].map((name) => [name, Number(words.get(name))]).filter(([name, value]) => isLimit(name, value)));
  const name = words.get("e") ?? /^[a-z_]+(-\d+)?$/.exec(text.split("&")[0])?.[0];
  if (words.has("s")) {
    return { script: await decoded(words.get("s")), number, limits };
  }
  return name === undefined ? null : { example: name, number };
}

async function decoded(coded) {
  if (!/^[\w-]*$/.test(coded)) {
    throw new Error("the address has signs that no shared script has");
  }
  try {
    return textOf(await inflated(bytesOf(coded.replaceAll("-", "+").replaceAll("_", "/"))));
  } catch (error) {
    throw new Error(error instanceof TextFault ? error.message : "the script in the address is damaged or cut off");
  }
}

/** Bytes that can't be a script. */
export class TextFault extends Error {}

/** Whether a text is short enough for a script. */
export const isScript = (text) => new TextEncoder().encode(text).length <= MOST_BYTES;

/** A text without the byte order mark that some editors put at the beginning of a file. */
export const withoutMark = (text) => text.replace(/^\ufeff/, "");

/** The text of a file, tested: a script is UTF-8 and has at most 1,048,576 bytes. */
export function textOf(bytes) {
  if (bytes.length > MOST_BYTES) {
    throw new TextFault(`the script is longer than 1,048,576 bytes: it has ${bytes.length.toLocaleString("en")}`);
  }
  try {
    return new TextDecoder("utf-8", { fatal: true, ignoreBOM: true }).decode(bytes);
  } catch {
    throw new TextFault("the script is not UTF-8");
  }
}
