// Printing: what is drawn only where it is seen is drawn whole as long as the page is printed.

const PARTS = ".rolling, .sheet-of-picture, .lines";

/** Tells the parts of the page when printing begins and ends: `draw` hears whether the whole is wanted. */
export function onPrint(part, draw) {
  part.addEventListener("whole", () => draw(true));
  part.addEventListener("part", () => draw(false));
}

const tell = (root, name) => () => root.querySelectorAll(PARTS).forEach((part) => part.dispatchEvent(new Event(name)));

/** Listens for the browser's printing, for the parts below a root. */
export function listenForPrinting(root = document) {
  addEventListener("beforeprint", tell(root, "whole"));
  addEventListener("afterprint", tell(root, "part"));
}
