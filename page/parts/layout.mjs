// Where the parts of an account stand in its picture: shapes with places, of which the picture draws those that are seen.

import { blocksOf, lastRuns, linksOf } from "./blocks.mjs";
import { changeBox, folded, groupsOf, keyGroup, otherBox, seenGroups, shownValue, violatingBox } from "./groups.mjs";
import { Flow } from "./flow.mjs";
import { changesOf } from "./journal.mjs";

const PAD = 12, LINE = 20, INDENT = 12, BETWEEN = 14, SIGNAL = 15;

// So high a picture may be before rows are folded, and how many boxes of a table a wave then has.
const HIGHEST = 1900, FOLDS = [24, 12, 6, 3], MANY = 400;

/**
 * The picture of what happened in a statement.
 * @param {{account: object[], answer: {kind: string, cause?: number, trigger?: string, signal?: string}, wentBack?: object[]}} detail
 * @param {import("./sheet.mjs").Sheet} sheet
 * @param {number} room how wide the picture may be
 * @param {boolean} isUnfolded whether all rows are shown, however many they are
 */
export function layout(detail, sheet, room, isUnfolded = false) {
  const written = [...changesOf(detail.account), ...(detail.wentBack ?? [])];
  const blocks = blocksOf(detail.account, written);
  const refusing = detail.answer.cause === SIGNAL ? lastRuns(blocks).findLast((run) => run.trigger === detail.answer.trigger) : null;
  if (refusing) {
    refusing.signal = detail.answer.signal;
  }
  let size = null;
  for (const most of isUnfolded || written.length + detail.account.length < MANY ? [Infinity, ...FOLDS] : FOLDS) {
    sheet.begin(most);
    size = placeAll(sheet, blocks, detail, room);
    if (isUnfolded || size.height <= HIGHEST) {
      break;
    }
  }
  return size;
}

function placeAll(sheet, blocks, { answer, wentBack }, room) {
  let { bottom, right } = placeBlocks(sheet, blocks, PAD, PAD, room - 2 * PAD, answer.kind === "refused");
  if (wentBack?.length > 0) {
    const back = placeBack(sheet, wentBack, PAD, bottom > PAD ? bottom + BETWEEN : PAD, room - 2 * PAD);
    bottom = back.bottom;
    right = Math.max(right, back.right);
  }
  return { width: right + PAD, height: bottom + PAD };
}

// Waves from left to right, then triggers, as many beside each other as there is room for, then what the refusal is about.
function placeBlocks(sheet, blocks, x, y, room, isRefused) {
  const runs = folded(blocks.triggers, sheet.most, (run) => run.signal !== undefined), violations = folded(blocks.violations, sheet.most);
  const made = [
    ...(blocks.waves.length > 0 ? [(top) => placeWaves(sheet, blocks, x, top, room)] : []),
    ...(runs.first.length > 0 ? [(top) => wrapped(sheet, runs.first.map((run) => (at) => placeTrigger(sheet, run, x, at, room, isRefused)), x, top, room)] : []),
    ...placeRest(sheet, runs.rest, "trigger run", x),
    ...violations.first.map((violation) => (top) => placeViolation(sheet, violation, x, top, room)),
    ...placeRest(sheet, violations.rest, "violation", x),
  ];
  return stacked(made, x, y);
}

// A line for what is folded.
function placeRest(sheet, rest, word, x) {
  const text = `and ${rest.length.toLocaleString("en")} more ${word}${rest.length === 1 ? "" : "s"}`;
  const place = (top) => {
    sheet.text(x, top + 13, text, "soft folded");
    return { bottom: top + LINE, right: x + sheet.width(text) };
  };
  return rest.length > 0 ? [place] : [];
}

// Parts from left to right, and on below where there is no more room.
function wrapped(sheet, made, x, y, room) {
  let [top, left, bottom, right] = [y, x, y, x];
  made.forEach((make, at) => {
    const first = sheet.shapes.length;
    const size = make(top);
    const isNext = at > 0 && left + size.right - x <= x + room;
    const [overX, overY] = at === 0 ? [0, 0] : isNext ? [left - x, 0] : [0, bottom + BETWEEN - top];
    sheet.shift(first, overX, overY);
    top += overY;
    left = size.right + overX + BETWEEN;
    bottom = Math.max(isNext ? bottom : 0, size.bottom + overY);
    right = Math.max(right, size.right + overX);
  });
  return { bottom, right };
}

function stacked(made, x, y) {
  return made.reduce(
    (size, make, at) => {
      const next = make(at === 0 ? y : size.bottom + BETWEEN);
      return { bottom: next.bottom, right: Math.max(size.right, next.right) };
    },
    { bottom: y, right: x },
  );
}

function placeWaves(sheet, { waves, violations }, x, y, room) {
  const last = waves.at(-1);
  const isHit = (change) => violations.some((violation) => violation.table === change.table && violation.row === change.row);
  // Where a statement is refused before its actions are done, the rows that they would reach are known by number alone.
  const reached = last.actions.map(({ table, row }) => ({ table, row, label: `row ${row}`, kind: "absent", cells: [], title: `${table} row ${row}` }));
  const columns = waves.map((wave, at) => ({
    caption: waves.length > 1 || reached.length > 0 ? `Wave ${at + 1}` : "",
    before: placedBefore(sheet, wave.before),
    beforeWidth: Math.max(0, ...wave.before.slice(0, 200).map((run) => triggerWidth(sheet, run))),
    groups: groupsOf(wave.changes.map((change) => changeBox(change)).map((box) => (isHit(box) ? { ...box, kind: `${box.kind} hit` } : box)), sheet.schema, sheet.most),
  }));
  if (reached.length > 0) {
    columns.push({ caption: "would follow", before: [], beforeWidth: 0, groups: groupsOf(reached, sheet.schema, sheet.most).map((group) => ({ ...group, columns: [] })) });
  }
  const boxes = columns.map((column) => new Map(column.groups.flatMap((group) => group.rows.flatMap((row) => (row.covers ?? [row]).map((each) => [`${each.table} ${each.row}`, row])))));
  const links = waves.map((wave, at) => linksOf(wave, waves[at + 1], sheet.schema, (change) => boxes[at].get(`${change.table} ${change.row}`)).map((link) => ({
    words: [link.constraint, link.action], name: "", from: link.sources.map(({ table, row }) => ({ table, row })), to: link.targets,
  })));
  return new Flow(sheet, columns, links).place(x, y, room);
}

// The runs of BEFORE triggers above the rows of a wave.
function placedBefore(sheet, runs) {
  const { first, rest } = folded(runs, sheet.most);
  const more = placeRest(sheet, rest, "trigger run", 0).map((place) => (left, top) => {
    const from = sheet.shapes.length, size = place(top);
    sheet.shift(from, left, 0);
    return { ...size, right: size.right + left };
  });
  return [...first.map((run) => (left, top, width) => placeTrigger(sheet, run, left, top, width, false)), ...more];
}

function triggerTitle(sheet, run) {
  // Beside what became of it, the event would make the title wider than a phone.
  if (run.when) return ` skipped: WHEN is ${run.when}`;
  const trigger = sheet.schema.triggers.get(run.trigger);
  return trigger ? ` ${trigger.time} ${trigger.event} ON ${trigger.table}` : "";
}

function triggerWidth(sheet, run) {
  const head = sheet.width(`trigger ${run.trigger}${triggerTitle(sheet, run)}`);
  const flow = new Flow(sheet, [{ caption: "", before: [], beforeWidth: 0, groups: seenGroups(run, sheet.schema, sheet.most) }], []);
  return Math.max(head, flow.width()) + 2 * INDENT;
}

// A frame with the trigger's name, what it saw, and the statements of its body.
function placeTrigger(sheet, run, x, y, room, isRefused) {
  const frame = sheet.box(x, y, 0, 0, run.signal === undefined ? "trigger" : "refusal");
  sheet.text(x + INDENT, y + LINE, `trigger ${run.trigger}`, "trigger-text strong");
  const head = `trigger ${run.trigger}`, rest = triggerTitle(sheet, run);
  const isLong = sheet.width(head + rest) > room - 2 * INDENT;
  const [restX, restY] = isLong ? [x + INDENT, y + 2 * LINE] : [x + INDENT + sheet.width(head), y + LINE];
  sheet.text(restX, restY, isLong ? rest.trim() : rest, "soft");
  const seen = seenGroups(run, sheet.schema, sheet.most);
  const made = [
    ...(seen.length > 0 ? [(top) => new Flow(sheet, [{ caption: "", before: [], beforeWidth: 0, groups: seen }], []).place(x + INDENT, top, room - 2 * INDENT)] : []),
    ...run.statements.map((statement) => (top) => placeStatement(sheet, statement, x + INDENT, top, room - 2 * INDENT, isRefused)),
    ...(run.signal === undefined ? [] : [(top) => placeSignal(sheet, run.signal, x + INDENT, top)]),
  ];
  const inner = stacked(made, x, restY + 10);
  const right = Math.max(inner.right, restX + sheet.width(isLong ? rest.trim() : rest)) + INDENT;
  Object.assign(frame, { w: right - x, h: inner.bottom + (made.length > 0 ? INDENT : 0) - y });
  return { bottom: y + frame.h, right };
}

// The text with which a trigger refused the statement.
function placeSignal(sheet, signal, x, y) {
  const text = `SIGNAL ${shownValue(signal, 60)}`;
  sheet.text(x, y + 13, text, "violating strong");
  return { bottom: y + LINE, right: x + sheet.width(text) };
}

function placeStatement(sheet, { place, blocks, changesNothing }, x, y, room, isRefused) {
  const isEmpty = blocks.waves.length + blocks.triggers.length + blocks.violations.length === 0;
  const words = `statement ${place} of the body${changesNothing ? " changes nothing" : ""}`;
  sheet.text(x, y + 12, words, "soft");
  const size = placeBlocks(sheet, blocks, x, y + LINE, room, isRefused);
  return { bottom: isEmpty ? y + LINE : size.bottom, right: Math.max(size.right, x + sheet.width(words)) };
}

const REASONS = {
  condition: ["CHECK", "is false"], null: ["NOT NULL", "is null"], "null key": ["PRIMARY KEY", "a null in the key"], "some nulls": ["MATCH FULL", "some of the key is null, not all"],
  key: ["same key", ""], absent: ["refers to", ""], restrict: ["RESTRICT", ""], conflict: ["two actions", ""],
};

// What the right side of a violation is: the other row, the key that is meant, or words.
function otherSide(violation, schema) {
  if (violation.reason === "key") {
    return groupsOf([otherBox(violation, schema)], schema);
  }
  if (violation.otherTable) {
    return [keyGroup(violation, schema)];
  }
  const [, words] = REASONS[violation.reason] ?? ["", violation.reason];
  const text = violation.reason === "condition" ? `${violation.condition} ${words}` : violation.reason === "null" ? `${violation.column} ${words}` : words;
  // The empty head keeps the words beside the row that they are about.
  return [{ head: " ", columns: [], rows: [{ label: text, kind: "absent", cells: [], title: text }] }];
}

function placeViolation(sheet, violation, x, y, room) {
  const frame = sheet.box(x, y, 0, 0, "refusal");
  const [word] = REASONS[violation.reason] ?? ["violates"];
  const columns = [
    { caption: "", before: [], beforeWidth: 0, groups: groupsOf([violatingBox(violation, sheet.schema)], sheet.schema) },
    { caption: "", before: [], beforeWidth: 0, groups: otherSide(violation, sheet.schema) },
  ];
  const link = { words: [violation.constraint, word], name: "bad", from: [columns[0].groups[0].rows[0]], to: [columns[1].groups[0].rows[0]] };
  const size = new Flow(sheet, columns, [[link]]).place(x + INDENT, y + INDENT, room - 2 * INDENT);
  Object.assign(frame, { w: size.right + INDENT - x, h: size.bottom + INDENT - y });
  return { bottom: y + frame.h, right: x + frame.w };
}

// What a refused COMMIT or a ROLLBACK took back.
function placeBack(sheet, changes, x, y, room) {
  const boxes = changes.map((change) => changeBox(change, change.after ? "back" : "gone"));
  return new Flow(sheet, [{ caption: "What went back", before: [], beforeWidth: 0, groups: groupsOf(boxes, sheet.schema, sheet.most) }], []).place(x, y, room);
}
