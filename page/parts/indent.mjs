// Tab and Shift-Tab in a text, where they indent.

const WIDTH = 4;

/** What indenting makes of the lines from one place of a text to another: the part that changes, and what stands there then. */
export function indented(text, from, to, isBack) {
  if (from === to && !isBack) {
    return { from, to, text: " ".repeat(WIDTH) };
  }
  const begin = text.lastIndexOf("\n", from - 1) + 1;
  const lines = text.slice(begin, to).split("\n");
  return { from: begin, to, text: lines.map((line) => (isBack ? line.replace(/^ {1,4}/, "") : " ".repeat(line === "" ? 0 : WIDTH) + line)).join("\n") };
}
