// The little of Markdown that lessons are written in, as elements: paragraphs, lists, `code`, **strong** and *emphasis*.

import { element } from "./elements.mjs";

// So long a piece of code stays on one line.
const SHORT = 24;
const INLINE = /`([^`]+)`|\*\*([^*]+)\*\*|\*([^*\s][^*]*)\*/g;

/** A line of Markdown as nodes. */
export function inline(text) {
  const nodes = [];
  let from = 0;
  for (const found of text.matchAll(INLINE)) {
    const [whole, code, strong, emphasis] = found;
    nodes.push(text.slice(from, found.index));
    nodes.push(code ? element("code", { class: code.length < SHORT ? "short" : null }, code) : strong ? element("strong", {}, strong) : element("em", {}, emphasis));
    from = found.index + whole.length;
  }
  return [...nodes, text.slice(from)].filter((node) => node !== "");
}

/** Lines of Markdown as paragraphs and lists; the first paragraph begins with what is in front. */
export function blocksOfMarkdown(lines, front = []) {
  const blocks = [];
  let isOpen = false;
  for (const line of lines) {
    const item = /^[-*] +(.*)$/.exec(line);
    if (line.trim() === "") {
      isOpen = false;
    } else if (isOpen && !item) {
      blocks.at(-1).lines.push(line.trim());
    } else {
      blocks.push({ isItem: item !== null, lines: [item ? item[1] : line.trim()] });
      isOpen = true;
    }
  }
  return blocks.reduce((made, { isItem, lines: own }, at) => {
    const block = element(isItem ? "li" : "p", {}, ...(at === 0 ? front : []), ...inline(own.join(" ")));
    if (isItem && made.at(-1)?.tagName === "UL") {
      made.at(-1).append(block);
      return made;
    }
    return [...made, isItem ? element("ul", {}, block) : block];
  }, []);
}
