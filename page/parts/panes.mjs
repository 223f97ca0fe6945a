// The panes beside the script, for the chosen statement.

import { byId, element } from "./elements.mjs";
import { diagram } from "./diagram.mjs";
import { layout } from "./layout.mjs";
import { characterWidth, LEAST_SCALE, Picture } from "./picture.mjs";
import { Rolling } from "./rolling.mjs";
import { Schema } from "./schema.mjs";
import { Sheet } from "./sheet.mjs";
import { count, faultOf, saidOf } from "./said.mjs";
import { tablesOf } from "./tables.mjs";
import { waitingOf } from "./waiting.mjs";

const LINE = 20, BORDERS = 2;

export class Panes {
  #detail = null;
  #lines = [];
  #width = 0;
  #isUnfolded = false;

  constructor() {
    this.picture = new Picture(byId("picture"));
    this.diagram = new Picture(byId("diagram"));
    this.rolling = new Rolling(byId("account-lines"), LINE, (at) => element("div", {}, this.#lines[at].replace(/\n/g, "↵")));
    byId("account-text").addEventListener("toggle", () => this.rolling.draw(true));
    byId("unfold").addEventListener("click", () => this.#unfold());
    new ResizeObserver(() => this.#resized()).observe(byId("detail"));
    document.fonts?.ready.then(() => this.#resized());
  }

  /** Shows a statement. */
  show(detail, text, answers, whole) {
    detail.schema = new Schema(detail.catalogue);
    detail.wentBack = wentBack(detail, text) ? [...detail.changes].sort((one, other) => one.row - other.row) : [];
    this.#detail = detail;
    this.#isUnfolded = false;
    byId("detail").hidden = false;
    byId("statement-head").textContent = `Statement ${detail.number} of ${whole}`;
    byId("said").replaceChildren(...saidOf(detail, text));
    byId("tables-head").textContent = `Tables after statement ${detail.number}`;
    byId("rows").replaceChildren(tablesOf(detail));
    byId("waiting").replaceChildren(...waitingOf(detail, answers));
    this.#draw();
  }

  /** Shows the place at which no statement begins. */
  showFault(fault, number) {
    this.clear();
    byId("detail").hidden = false;
    byId("statement-head").textContent = `Statement ${number}`;
    byId("said").replaceChildren(...faultOf(fault, number));
  }

  /** Shows nothing: no statement was executed. */
  clear() {
    this.#detail = null;
    this.picture.clear();
    this.diagram.clear();
    byId("statement-head").textContent = "Statement";
    byId("said").replaceChildren(element("p", { class: "none" }, "Run the script, or step through it, to see what each statement does."));
    ["waiting", "rows"].forEach((id) => byId(id).replaceChildren());
    ["account", "deferred", "tables", "schema"].forEach((id) => byId(id).hidden = true);
  }

  #unfold() {
    this.#isUnfolded = !this.#isUnfolded;
    this.#draw();
  }

  #resized() {
    const width = byId("detail").clientWidth;
    if (this.#detail && Math.abs(width - this.#width) > 2) {
      this.#draw();
    }
  }

  #draw() {
    const detail = this.#detail;
    this.#width = byId("detail").clientWidth;
    const hasPicture = detail.account.some((entry) => !["note", "savepoints"].includes(entry.kind)) || detail.wentBack.length > 0;
    byId("account").hidden = !hasPicture;
    ["deferred", "tables", "schema"].forEach((id) => byId(id).hidden = detail.schema.tables.size === 0);
    this.#drawAccount(detail, hasPicture);
    if (detail.schema.tables.size > 0) {
      const sheet = new Sheet(characterWidth(), detail.schema);
      const room = this.#width - BORDERS;
      this.diagram.show(sheet.shapes, diagram(detail.schema, sheet, room), room, schemaLabel(detail.schema));
    }
  }

  #drawAccount(detail, hasPicture) {
    this.#lines = hasPicture ? detail.lines : [];
    byId("account-text").hidden = detail.lines.length === 0;
    byId("account-lines").style.height = `${Math.min(16, this.#lines.length) * LINE + 2}px`;
    this.rolling.show(this.#lines.length);
    if (!hasPicture) {
      byId("unfold").hidden = true;
      this.picture.clear();
      return;
    }
    const sheet = new Sheet(characterWidth(), detail.schema);
    const room = this.#width - BORDERS;
    const size = layout(detail, sheet, room / LEAST_SCALE, this.#isUnfolded);
    this.picture.show(sheet.shapes, size, room, accountLabel(detail));
    byId("unfold").hidden = !sheet.isFolded && !this.#isUnfolded;
    byId("unfold").textContent = this.#isUnfolded ? "Fold the picture" : "Show all rows";
  }
}

// COMMIT where it is refused, and ROLLBACK, take back what was done before.
function wentBack(detail, text) {
  return detail.changes.length > 0 && (detail.answer.cause === 19 || /^rollback/i.test(text));
}

function accountLabel({ account, answer, wentBack }) {
  const counts = ["insert", "delete", "update"].map((kind) => [kind, account.filter((entry) => entry.kind === kind).length]).filter(([, number]) => number > 0);
  const changes = counts.map(([kind, number]) => count(number, kind)).join(", ");
  const actions = account.filter((entry) => entry.kind === "action").length;
  const runs = account.filter((entry) => entry.kind === "trigger").length;
  const skipped = account.filter((entry) => entry.kind === "skipped").length;
  const faults = account.filter((entry) => entry.kind === "violation").length;
  const parts = [changes, actions && count(actions, "action"), runs && count(runs, "trigger run"), skipped && `${count(skipped, "trigger")} skipped`, faults && count(faults, "violation"), wentBack.length && `${count(wentBack.length, "row")} went back`];
  return `Picture of the account: ${parts.filter(Boolean).join(", ")}${answer.kind === "refused" ? "; the statement is refused" : ""}. The account as text follows.`;
}

function schemaLabel(schema) {
  const foreign = [...schema.constraints.values()].filter((constraint) => constraint.kind === "FOREIGN KEY");
  return `Diagram of ${count(schema.tables.size, "table")}${foreign.length > 0 ? `: ${foreign.map((each) => `${each.table} refers to ${each.referenced} by ${each.name}`).join(", ")}` : ""}`;
}
