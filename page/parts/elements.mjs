// Elements of HTML and of SVG, made in one call.

const SVG = "http://www.w3.org/2000/svg";

function filledElement(made, attributes, children) {
  for (const [name, value] of Object.entries(attributes)) {
    if (typeof value === "function") {
      made.addEventListener(name.replace(/^on/, ""), value);
    } else if (value !== null && value !== false) {
      made.setAttribute(name, value === true ? "" : value);
    }
  }
  made.append(...children.filter((child) => child !== null));
  return made;
}

/** An element of HTML. An attribute that is a function listens; one that is null or false is left out. */
export function element(tag, attributes = {}, ...children) {
  return filledElement(document.createElement(tag), attributes, children);
}

/** An element of SVG. */
export function drawing(tag, attributes = {}, ...children) {
  return filledElement(document.createElementNS(SVG, tag), attributes, children);
}

/** The element with this id.
 * @type {(id: string) => any} */
export const byId = (id) => document.getElementById(id);
