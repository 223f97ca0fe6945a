// <sql-keep>: a block of SQL that runs in any page, with its answers and the picture of what each statement did.

import { Answers } from "./answers.mjs";
import { Client } from "./client.mjs";
import { Editor } from "./editor.mjs";
import { element } from "./elements.mjs";
import { layout } from "./layout.mjs";
import { characterWidth, LEAST_SCALE, Picture } from "./picture.mjs";
import { listenForPrinting } from "./print.mjs";
import { Run } from "./run.mjs";
import { count, faultOf, saidOf } from "./said.mjs";
import { Schema } from "./schema.mjs";
import { Sheet } from "./sheet.mjs";
import { itemsOf, marksOf, renumbered, wrongOf } from "./shown.mjs";
import { statementsOf, tokensOf } from "./tokens.mjs";

const NAME = "sql-keep", RUNNING_MS = 200, BORDERS = 2;
const LIMITS = { depth: 16, changes: 65536 };

async function compiled(address) {
  const answer = await fetch(address);
  if (!answer.ok) {
    throw new Error(`The engine can't be loaded: ${address} answers ${answer.status}.`);
  }
  return WebAssembly.compile(await answer.arrayBuffer());
}

class Block extends HTMLElement {
  /** @type {{worker: string, style: string, engine: URL}} */
  static parts;
  // One engine for all blocks, compiled when the first of them runs.
  static module = null;

  #chosen = 0;
  #isMade = false;
  #run = null;

  connectedCallback() {
    // The text comes after the tag where the parser makes the element.
    queueMicrotask(() => (document.readyState === "loading" ? addEventListener("DOMContentLoaded", () => this.#make(), { once: true }) : this.#make()));
  }

  #make() {
    if (this.#isMade || !this.isConnected) {
      return;
    }
    this.#isMade = true;
    const root = this.attachShadow({ mode: "open" }), style = element("style", {}, Block.parts.style);
    this.#parts(root, style);
    this.editor.text = this.textContent.replace(/^[ \t]*\n/, "").trimEnd();
    this.editor.area.readOnly = this.hasAttribute("readonly");
    this.#again("");
    listenForPrinting(root);
    root.addEventListener("keydown", (event) => this.#key(event));
    if (this.hasAttribute("autorun")) {
      // It runs when it is seen first.
      const seen = new IntersectionObserver((entries) => {
        if (entries.some((entry) => entry.isIntersecting)) {
          seen.disconnect();
          this.run();
        }
      });
      seen.observe(this);
    }
  }

  #parts(root, style) {
    const button = (name, title, work, keys) => element("button", { class: name === "Run" ? "first" : null, title, "aria-keyshortcuts": keys, onclick: work }, name);
    this.status = element("p", { class: "status", role: "status" });
    this.stopButton = element("button", { title: "End the run", disabled: true, onclick: () => this.#run?.stop() }, "Stop");
    const bar = element("div", { class: "bar", role: "toolbar", "aria-label": "Block of SQL" },
      button("Run", "Execute the block (Ctrl-Enter)", () => this.run(), "Control+Enter"), button("Back", "Back to the statement before (Alt-Up)", () => this.choose(this.#chosen - 1), "Alt+ArrowUp"),
      button("Step", "On to the next statement (Alt-Down)", () => this.step(), "Alt+ArrowDown"), this.stopButton, this.status);
    const editor = element("div", { class: "editor" }), answers = element("div", { class: "answers", role: "listbox", tabindex: "0", "aria-label": "Answers" });
    this.said = element("div", { id: "said" });
    this.box = element("div", { class: "picture" });
    root.append(style, element("section", { class: "block", "aria-label": "SQL that runs in this page" }, editor, bar, answers, this.said, this.box));
    this.editor = new Editor(editor, { onChange: () => this.#again("The script was changed: run it again."), onCaret: (number) => number <= this.#items.length && this.choose(number), onIndenting: (isIndenting) => this.#say(isIndenting ? "Tab indents; Escape leaves that." : "") });
    this.answers = new Answers(answers, (number) => this.choose(number));
    this.picture = new Picture(this.box);
  }

  #key(event) {
    const keys = { "Control+Enter": () => this.run(), "Meta+Enter": () => this.run(), "Alt+ArrowDown": () => this.step(), "Alt+ArrowUp": () => this.choose(this.#chosen - 1) };
    const name = `${event.ctrlKey ? "Control+" : ""}${event.metaKey ? "Meta+" : ""}${event.altKey ? "Alt+" : ""}${event.key}`;
    if (name in keys) {
      event.preventDefault();
      keys[name]();
    }
  }

  #say(text) {
    this.status.textContent = text;
  }

  // What the blocks before this one with the same database have: they run first.
  get #before() {
    const name = this.getAttribute("database");
    const blocks = name === null ? [] : [...document.querySelectorAll(NAME)].filter((each) => each.editor && each.getAttribute("database") === name);
    const text = blocks.slice(0, Math.max(0, blocks.indexOf(this))).map((each) => `${each.editor.text}\n`).join("");
    return { text, characters: text.length, statements: statementsOf(tokensOf(text)).length };
  }

  get #items() {
    return this.#run === null || this.#run.script === null ? [] : itemsOf(this.#run, this.editor, this.before);
  }

  #again(why) {
    this.#run?.forget();
    this.#chosen = 0;
    this.editor.mark([], null);
    this.answers.show([]);
    this.answers.box.hidden = this.said.hidden = this.box.hidden = true;
    this.#say(why);
  }

  #begin() {
    if (this.#run !== null) {
      return;
    }
    Block.module ??= compiled(Block.parts.engine);
    // What couldn't be loaded is asked for again by the next run.
    Block.module.catch(() => {
      Block.module = null;
      this.#run = null;
    });
    this.#run = new Run(new Client(Block.parts.worker, Block.module), () => LIMITS);
    this.#run.onBusy = (isBusy) => {
      this.stopButton.disabled = !isBusy;
      this.setAttribute("aria-busy", String(isBusy));
    };
  }

  /** Executes the whole block, and chooses the first statement that is refused, else the last. */
  async run() {
    await this.#execute(Infinity, (items) => items.findIndex(({ kind }) => kind === "refused" || kind === "fault") + 1 || items.length);
  }

  /** Goes on to the next statement, and executes it where that wasn't done. */
  async step() {
    const next = this.#chosen + 1;
    await (next <= this.#items.length ? this.choose(next) : this.#execute(next, (items) => Math.min(next, items.length)));
  }

  async #execute(upTo, pick) {
    this.#begin();
    if (this.#run.isBusy) {
      return;
    }
    this.before = this.#before;
    const began = performance.now(), running = setInterval(() => this.#showRunning(performance.now() - began), RUNNING_MS);
    try {
      await this.#run.execute(this.before.text + this.editor.text, this.before.statements + upTo, () => {});
      this.#show();
      this.#say(`${count(this.#items.filter(({ kind }) => kind !== "fault").length, "statement")}, ${this.#items.filter(({ kind }) => kind === "refused").length} refused.`);
      await this.choose(pick(this.#items));
    } catch (error) {
      if (this.#run !== null) {
        this.#show();
      }
      this.#say(error.message === "stopped" ? `Stopped. ${count(this.#items.length, "statement")} executed.` : error.message);
    } finally {
      clearInterval(running);
    }
  }

  #showRunning(time) {
    this.#show();
    this.#say(`Running statement ${this.#items.length + 1}${time < 1000 ? "" : `, for ${Math.floor(time / 1000)} s`}`);
  }

  #show() {
    const items = this.#items, { fault, isWhole } = this.#run;
    const isBefore = fault && isWhole && fault.at < this.before.characters;
    this.answers.box.hidden = items.length === 0;
    this.answers.show(items);
    this.editor.mark(isBefore ? [] : marksOf(items), isBefore ? null : wrongOf(this.#run, this.editor, this.before));
  }

  /** Shows a statement that was executed. */
  async choose(number) {
    const items = this.#items;
    if (number < 1 || number > items.length) {
      return;
    }
    this.#chosen = number;
    this.answers.choose(number);
    this.editor.choose(number);
    this.said.hidden = false;
    if (items[number - 1].kind === "fault") {
      this.box.hidden = true;
      this.said.replaceChildren(...faultOf(this.#run.fault, number));
      return;
    }
    const detail = await this.#run.view(this.before.statements + number).catch((error) => this.#say(error.message));
    if (!detail || number !== this.#chosen) {
      return;
    }
    detail.schema = new Schema(detail.catalogue);
    detail.line = renumbered(detail.line, number);
    this.said.replaceChildren(...saidOf(detail, items[number - 1].text).slice(1));
    this.#draw(detail);
  }

  #draw(detail) {
    const hasPicture = !this.hasAttribute("no-picture") && detail.account.some((entry) => !["note", "savepoints"].includes(entry.kind));
    this.box.hidden = !hasPicture;
    if (!hasPicture) {
      this.picture.clear();
      return;
    }
    const sheet = new Sheet(characterWidth(this.shadowRoot), detail.schema), room = this.box.clientWidth - BORDERS;
    const size = layout(detail, sheet, room / LEAST_SCALE);
    this.picture.show(sheet.shapes, size, room, `Picture of what statement ${this.#chosen} did`);
  }
}

/** Makes the element known to the page. */
export function define(parts) {
  Block.parts = parts;
  if (!customElements.get(NAME)) {
    customElements.define(NAME, Block);
  }
}
