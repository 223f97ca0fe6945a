// Columns of row boxes with links between them: side by side where there is room, and otherwise one below the other. Of many rows below
// each other every link has a line, with the rows that it reached.

import { units } from "./groups.mjs";

const CELL = 10, PAD = 7, HEAD = 20, ROW = 24, ROW_GAP = 4, GROUP_GAP = 12, CAPTION = 22;
// The room for lines beside pills: more where there are more lines.
const ARM = 14, ARM_FOR_EACH = 1.5, MOST_ARM = 30;
// Boxes in lines: what is between them and between their lines, how far below them an arrow passes, and how many aren't put in lines.
const GUTTER = 14, LINE_GAP = 16, UNDER = 11, FEW = 3;
const PILL = 36, PILL_GAP = 8, PILL_LINE = 24, MARGIN = 22, TIP = 7;

const textOf = (cell) => cell.map((piece) => piece.text).join("");

/** How wide the label and the cells of a group are, in characters. */
function widthsOf(group) {
  const label = Math.max(units(group.columns.length > 0 ? group.head : ""), ...group.rows.map((row) => units(row.label)));
  const count = Math.max(0, ...group.rows.map((row) => row.cells.length));
  const cells = Array.from({ length: count }, (_, at) => Math.max(units(group.columns[at] ?? ""), ...group.rows.map((row) => units(row.cells[at] ? textOf(row.cells[at]) : ""))));
  return { label, cells };
}

export class Flow {
  /**
   * @param {object} sheet takes the shapes
   * @param {{caption: string, before: Function[], beforeWidth: number, groups: object[]}[]} columns
   * @param {{words: string[], name: string, from: object[], to: object[]}[][]} links those from each column to the next
   */
  constructor(sheet, columns, links) {
    this.sheet = sheet;
    this.columns = columns.map((column) => this.#measured(column));
    // All pills between two columns are as wide as the widest, so that no line goes past the side of another one.
    this.links = links.map((between) => {
      const w = Math.max(0, ...between.flatMap((link) => link.words).map((word) => sheet.width(word))) + 2 * PAD;
      return between.map((link) => ({ ...link, w }));
    });
  }

  #measured(column) {
    const groups = column.groups.map((group) => {
      const widths = widthsOf(group);
      const inner = [widths.label, ...widths.cells].reduce((sum, width) => sum + width * this.sheet.characterWidth + CELL, -CELL);
      return { ...group, widths, w: Math.max(inner, this.sheet.width(group.head)) + 2 * PAD };
    });
    return { ...column, groups, w: Math.max(this.sheet.width(column.caption), column.beforeWidth, ...groups.map((group) => group.w)) };
  }

  #gap(at) {
    const links = this.links[at] ?? [];
    return links.length > 0 ? 2 * (ARM + Math.min(MOST_ARM, links.length * ARM_FOR_EACH)) + links[0].w : ARM;
  }

  /** How wide the columns are side by side. */
  width() {
    return this.columns.reduce((sum, column, at) => sum + column.w + (at > 0 ? this.#gap(at - 1) : 0), 0);
  }

  /** Puts the columns at a place; what they take up to the bottom and to the right. */
  place(x, y, room) {
    if (this.columns.length === 1 || this.width() <= room) {
      return this.#beside(x, y);
    }
    const lines = this.columns.map((_, at) => this.#linesTo(at));
    return this.#isListed(lines, room) ? this.#listed(lines, x, y, room) : this.#below(x, y);
  }

  #beside(x, y) {
    let left = x, bottom = y;
    this.columns.forEach((column, at) => {
      column.boxes = new Map();
      bottom = Math.max(bottom, this.#column(column, left, y, column.w));
      left += column.w + this.#gap(at);
    });
    left = x;
    this.links.slice(0, this.columns.length - 1).forEach((links, at) => {
      left += this.columns[at].w;
      bottom = Math.max(bottom, this.#pillsBeside(links, at, left, y));
      left += this.#gap(at);
    });
    return { bottom, right: x + this.width() };
  }

  // The rows of a column from the top down; its bottom.
  #column(column, x, y, width) {
    let top = this.#front(column, x, y, width);
    column.groups.forEach((group, at) => {
      top = this.#group(column, group, x, top + (at > 0 ? GROUP_GAP : 0), width);
    });
    return top;
  }

  // The caption of a column, and the triggers that ran before its rows; their bottom.
  #front(column, x, y, width) {
    let top = y;
    if (column.caption) {
      this.sheet.text(x, top + 12, column.caption, "soft sans");
      top += CAPTION;
    }
    column.before.forEach((place) => {
      top = place(x, top, width).bottom + GROUP_GAP;
    });
    return top;
  }

  #group(column, group, x, y, width) {
    let top = this.#heads(group, x, y);
    group.rows.forEach((row) => {
      const box = this.#box(group, row, x, top, width);
      [row, ...(row.covers ?? [])].forEach((each) => column.boxes.set(`${each.table} ${each.row}`, box));
      column.boxes.set(row, box);
      top += ROW + ROW_GAP;
    });
    return top - ROW_GAP;
  }

  // The names of a group's table and columns; their bottom.
  #heads(group, x, y) {
    if (!group.head) {
      return y;
    }
    this.sheet.text(x + PAD, y + 13, group.head, "strong");
    this.#cells(group, group.columns.map((name) => [{ text: name, name: "soft small" }]), x, y + 13);
    return y + HEAD;
  }

  #box(group, row, x, y, width) {
    const box = this.sheet.box(x, y, width, ROW, `row ${row.kind}`, row.title);
    this.sheet.text(x + PAD, y + 16, row.label, row.kind === "absent" ? "violating" : row.kind);
    this.#cells(group, row.cells, x, y + 16);
    return box;
  }

  #cells(group, cells, x, base) {
    let left = x + PAD + group.widths.label * this.sheet.characterWidth + CELL;
    cells.forEach((cell, at) => {
      let from = left;
      cell.forEach(({ text, name }) => {
        this.sheet.text(from, base, text, name);
        from += this.sheet.width(text);
      });
      left += group.widths.cells[at] * this.sheet.characterWidth + CELL;
    });
  }

  #ends(links, at) {
    const boxOf = (column, end) => column.boxes.get(end) ?? column.boxes.get(`${end.table} ${end.row}`);
    return links.map((link) => ({
      ...link,
      from: [...new Set(link.from.map((end) => boxOf(this.columns[at], end)))].filter(Boolean),
      to: [...new Set(link.to.map((end) => boxOf(this.columns[at + 1], end)))].filter(Boolean),
    })).filter((link) => link.to.length > 0);
  }

  // The pills between two columns, each as near to the rows that it leads to as the others let it; their bottom.
  #pillsBeside(links, at, x, y) {
    const room = this.#gap(at);
    const ends = this.#ends(links, at).map((link) => ({ ...link, middle: middleOf(link.to) })).sort((one, other) => one.middle - other.middle);
    const tops = spread(ends.map((link) => link.middle - PILL / 2), PILL + PILL_GAP, y + (this.columns[at].caption ? CAPTION : 0));
    ends.forEach((link, place) => {
      const top = tops[place], left = x + (room - link.w) / 2;
      this.#pill(link, left, top, PILL);
      link.from.forEach((box) => this.#curve(box.x + box.w, box.y + box.h / 2, left, top + PILL / 2, link.name, false));
      link.to.forEach((box) => this.#curve(left + link.w, top + PILL / 2, box.x, box.y + box.h / 2, link.name, true));
    });
    return ends.length > 0 ? tops.at(-1) + PILL : y;
  }

  #pill(link, x, y, height) {
    this.sheet.box(x, y, link.w, height, `pill ${link.name}`);
    link.words.forEach((word, at) => {
      this.sheet.text(x + (link.w - this.sheet.width(word)) / 2, y + 15 + at * 15, word, at === 0 ? "strong" : link.name || "accent");
    });
  }

  #curve(x, y, toX, toY, name, isTipped) {
    const end = isTipped ? toX - TIP : toX;
    const bend = Math.max(10, (end - x) * 0.6);
    this.sheet.path(x, y, toY, `arrow ${name}`, `M0 0C${bend} 0 ${end - bend - x} ${toY - y} ${end - x} ${toY - y}`);
    if (isTipped) {
      this.#tip(toX, toY, name);
    }
  }

  #tip(x, y, name) {
    this.sheet.path(x, y, y, `tip ${name}`, `M0 0l${-TIP - 2} -4.5v9z`);
  }

  // One column below the other, with the lines of links in the margins: out at the right, and in at the left.
  #below(x, y) {
    const width = Math.max(...this.columns.map((column) => column.w), ...this.links.flat().map((link) => this.#lineWidth(link)));
    let top = y;
    this.columns.forEach((column, at) => {
      column.boxes = new Map();
      const links = at > 0 ? this.links[at - 1] ?? [] : [];
      const pills = links.length * (PILL_LINE + PILL_GAP);
      const pillsAt = top + (at > 0 ? GROUP_GAP : 0);
      top = this.#column(column, x + MARGIN, pillsAt + pills + (pills > 0 ? PILL_GAP : 0), width);
      this.#pillsBelow(links, at - 1, x, pillsAt, width);
    });
    return { bottom: top, right: x + width + 2 * MARGIN };
  }

  #lineWidth(link) {
    return this.sheet.width(link.words.join(" ")) + 2 * PAD;
  }

  #pillsBelow(links, at, x, y, width) {
    this.#ends(links, at).forEach((link, place) => {
      const w = this.#lineWidth(link), left = x + MARGIN + (width - w) / 2;
      const top = y + place * (PILL_LINE + PILL_GAP), middle = top + PILL_LINE / 2;
      const outX = x + MARGIN + width + 6 + (place % 4) * 4, inX = x + MARGIN - 8 - (place % 4) * 4;
      this.#pillInLine(link, "", left, top, w);
      link.from.forEach((box) => this.#corner([box.x + box.w, box.y + box.h / 2], outX, [left + w, middle], link.name));
      link.to.forEach((box) => this.#corner([left, middle], inX, [box.x - TIP, box.y + box.h / 2], link.name));
      link.to.forEach((box) => this.#tip(box.x, box.y + box.h / 2, link.name));
    });
  }

  // A pill with its words in one line, and in front of them the row that it comes from.
  #pillInLine({ words: [first, second], name }, origin, x, y, w) {
    this.sheet.box(x, y, w, PILL_LINE, `pill ${name}`);
    this.sheet.text(x + PAD, y + 16, origin, "soft");
    this.sheet.text(x + PAD + this.sheet.width(origin), y + 16, first, "strong");
    this.sheet.text(x + PAD + this.sheet.width(`${origin}${first} `), y + 16, second, name || "accent");
  }

  // The links to a column: where each begins, in words, and the rows that it reached. A row that another one reached too has its number there.
  #linesTo(at) {
    const rows = new Map(this.columns[at].groups.flatMap((group) => group.rows.flatMap((row) => [row, ...(row.covers ?? [])].map((each) => [`${each.table} ${each.row}`, { group, row }]))));
    const seen = new Set();
    return (this.links[at - 1] ?? []).map((link) => {
      const found = link.to.map((end) => rows.get(`${end.table} ${end.row}`)).filter(Boolean);
      const reached = [...new Set(found.map(({ row }) => row))], origin = originOf(link.from, this.columns[at - 1].groups);
      const line = { ...link, origin, group: found[0]?.group, rows: reached.map((row) => (seen.has(row) ? numberAlone(row) : row)), w: this.#lineWidth(link) + this.sheet.width(origin) };
      reached.forEach((row) => seen.add(row));
      return line;
    }).filter((line) => line.rows.length > 0);
  }

  // Whether there are many rows, and room for them beside the pills.
  #isListed(lines, room) {
    const groups = this.columns.flatMap((column) => column.groups), pill = Math.max(0, ...lines.flat().map((line) => line.w));
    return groups.some((group) => group.rows.length > FEW) && groups.every((group) => pill + 3 * GUTTER + group.w <= room);
  }

  #listed(lines, x, y, room) {
    let top = y;
    this.columns.forEach((column, at) => {
      top = this.#front(column, x, top + (at > 0 ? GROUP_GAP + UNDER : 0), room);
      column.groups.forEach((group, place) => {
        top = this.#reached(group, lines[at].filter((line) => line.group === group), x, top + (place > 0 ? GROUP_GAP : 0), room);
      });
    });
    return { bottom: top, right: x + room };
  }

  // The rows of a group beside the links that reached them, and those that none reached; their bottom.
  #reached(group, lines, x, y, room) {
    const left = lines.length > 0 ? x + Math.max(...lines.map((line) => line.w)) + 3 * GUTTER : x;
    const across = Math.max(1, Math.floor((x + room - left + GUTTER) / (group.w + GUTTER)));
    const boxesOf = (rows, top) => rows.map((row, at) => this.#box(group, row, left + (at % across) * (group.w + GUTTER), top + Math.floor(at / across) * (ROW + LINE_GAP), group.w));
    let top = this.#heads(group, left, y);
    for (const line of lines) {
      const boxes = boxesOf(line.rows, top);
      this.#pillInLine(line, line.origin, x, top, line.w);
      boxes.forEach((box) => this.#arrowTo(box, x + line.w, top + PILL_LINE / 2, left, line.name));
      top = boxes.at(-1).y + ROW + LINE_GAP;
    }
    const reached = new Set(lines.flatMap((line) => line.rows));
    const others = boxesOf(group.rows.filter((row) => !reached.has(row)), top);
    return others.length > 0 ? others.at(-1).y + ROW : top - LINE_GAP;
  }

  // From a pill to a box: to the first of a line from its left, to the others from below.
  #arrowTo(box, x, y, left, name) {
    const turn = left - GUTTER - TIP;
    if (box.x === left) {
      this.#corner([x, y], turn, [box.x - TIP, box.y + ROW / 2], name);
      this.#tip(box.x, box.y + ROW / 2, name);
      return;
    }
    const toX = box.x + GUTTER, bottom = box.y + ROW;
    this.sheet.path(x, y, bottom + UNDER, `arrow ${name}`, `M0 0H${turn - x}V${bottom + UNDER - y}H${toX - x}V${bottom + TIP - y}`);
    this.sheet.path(toX, bottom, bottom + TIP, `tip ${name}`, `M0 0l-4 ${TIP}h8z`);
  }

  #corner([x, y], over, [toX, toY], name) {
    this.sheet.path(x, y, toY, `arrow ${name}`, `M0 0H${over - x}V${toY - y}H${toX - x}`);
  }
}

// Where a link begins, in words: its row, or how many there are, with the table where there are several.
function originOf(from, groups) {
  if (from.length === 0) {
    return "";
  }
  const table = groups.length > 1 ? `${from[0].table} ` : "";
  return `${table}${from.length === 1 ? `row ${from[0].row}` : `${from.length.toLocaleString("en")} rows`} `;
}

// The box of a row that stands there already.
const numberAlone = (row) => ({ ...row, label: row.row === null ? row.label : `row ${row.row}`, kind: row.row === null ? row.kind : "plain", cells: [] });

// Heights at least a step apart, each as near as can be to the one that is wanted; none is less than the first that is allowed.
function spread(wanted, step, least) {
  const heaps = [];
  wanted.forEach((top, at) => {
    let heap = { sum: top - at * step, count: 1 };
    while (heaps.length > 0 && heaps.at(-1).sum / heaps.at(-1).count > heap.sum / heap.count) {
      const before = heaps.pop();
      heap = { sum: heap.sum + before.sum, count: heap.count + before.count };
    }
    heaps.push(heap);
  });
  const bases = heaps.flatMap((heap) => Array.from({ length: heap.count }, () => heap.sum / heap.count));
  return bases.map((base, at) => Math.max(base, least) + at * step);
}

const middleOf = (boxes) => boxes.reduce((sum, box) => sum + box.y + box.h / 2, 0) / boxes.length;
