// What the buttons, the keys and the lists of the page do.

import { Answers } from "./answers.mjs";
import { byId, element } from "./elements.mjs";
import { Editor } from "./editor.mjs";
import { Examples } from "./examples.mjs";
import { Kept } from "./kept.mjs";
import { checksOf, joined, partsOf } from "./lesson.mjs";
import { lessonOf, resultsOf } from "./tutor.mjs";
import { Limits } from "./limits.mjs";
import { Panes } from "./panes.mjs";
import { Run } from "./run.mjs";
import { count } from "./said.mjs";
import { itemsOf, marksOf, wrongOf } from "./shown.mjs";
import { addressOf, scriptOf, textOf, withoutMark } from "./share.mjs";

// So long a run takes before the page says that it goes on, and between two looks at it.
const RUNNING_MS = 200;

function download(text, name) {
  const address = URL.createObjectURL(new Blob([text], { type: "text/plain" }));
  element("a", { href: address, download: name }).click();
  setTimeout(() => URL.revokeObjectURL(address), 1000);
}

export class Controls {
  #chosen = 0;
  #asked = 0;
  /** @type {import("./lesson.mjs").Note[]} */
  #notes = [];
  #lessonLines = [];
  #isLessonEdited = false;

  /** @param {import("./client.mjs").Client} client @param {object[]} groups the scripts that the page brings */
  constructor(client, groups) {
    this.limits = new Limits((fault) => this.#limited(fault));
    this.run = new Run(client, () => this.limits.options);
    this.panes = new Panes();
    this.kept = new Kept();
    this.examples = new Examples(byId("example"), groups);
    this.editor = new Editor(byId("editor"), { onChange: () => this.#edited(), onCaret: (number) => this.#caret(number), onIndenting: (isIndenting) => this.#say(isIndenting ? "Tab and Shift-Tab indent. Escape lets Tab leave the editor again." : "Tab leaves the editor.") });
    this.answers = new Answers(byId("answers"), (number) => this.choose(number));
    this.run.onBusy = (isBusy) => this.#busy(isBusy);
    this.#listen();
  }

  /** Opens the script of the address and runs it, or shows the one that was typed here last, or runs the first example. */
  async begin() {
    const { script } = this.kept, own = script === null ? null : this.examples.add(script);
    if (await this.#openAddress()) {
      return;
    }
    if (own === null) {
      await this.#openExample(this.examples.first);
    } else {
      await this.#put(own);
      this.#say("This is the script that was typed here last: run it.");
    }
  }

  #listen() {
    const buttons = { run: () => this.runAll(), step: () => this.step(), here: () => this.runToHere(), selection: () => this.runSelection(), back: () => this.back(), stop: () => this.run.stop(), share: () => this.share(), open: () => byId("file").click(), save: () => this.save(), transcript: () => this.saveTranscript(), help: () => byId("legend").showModal(), lesson: () => this.editLesson() };
    Object.entries(buttons).forEach(([id, work]) => byId(id).addEventListener("click", work));
    byId("example").addEventListener("change", () => this.#choseExample(byId("example").value));
    byId("file").addEventListener("change", () => this.#openFile());
    addEventListener("hashchange", () => history.state?.name ?? this.#openAddress());
    addEventListener("popstate", ({ state }) => state?.name && this.#goBack(state.name));
    addEventListener("keydown", (event) => this.#key(event));
  }

  #key(event) {
    const keys = { "Control+Enter": () => this.runAll(), "Meta+Enter": () => this.runAll(), "Control+Shift+Enter": () => this.runToHere(), "Meta+Shift+Enter": () => this.runToHere(), "Alt+Enter": () => this.runSelection(), "Alt+ArrowDown": () => this.step(), "Alt+ArrowUp": () => this.back() };
    const name = `${event.ctrlKey ? "Control+" : ""}${event.metaKey ? "Meta+" : ""}${event.altKey ? "Alt+" : ""}${event.shiftKey ? "Shift+" : ""}${event.key}`;
    // A list of choices has Alt and an arrow for itself.
    if (name in keys && event.target.tagName !== "SELECT") {
      event.preventDefault();
      keys[name]();
    }
  }

  #busy(isBusy) {
    document.body.setAttribute("aria-busy", String(isBusy));
    // A short run would only make the button flicker.
    clearTimeout(this.stopTimer);
    if (isBusy) {
      this.stopTimer = setTimeout(() => (byId("stop").disabled = false), 80);
    } else {
      byId("stop").disabled = true;
    }
  }

  #say(text, isBad = false) {
    byId("status").className = isBad ? "bad" : "";
    // What is said already isn't read aloud again.
    if (byId("status").textContent !== text) {
      byId("status").textContent = text;
    }
  }

  // Puts a script into the editor. What was typed there is kept in the list of examples.
  async #put(name, limits) {
    const example = this.examples.find(name);
    this.#take(example.script);
    this.limits.set(limits ?? example.limits);
    this.run.forget();
    await this.run.idle();
    this.#chosen = 0;
    this.examples.choose(name);
    history.replaceState({ name }, "");
    this.#clear();
  }

  // Puts a text into the editor, without the notes of its lesson, which stand above.
  #take(text) {
    const { script, notes } = partsOf(text);
    this.#notes = notes;
    this.#isLessonEdited = false;
    this.#lessonLines = notes.length > 0 ? script.split("\n").filter((line) => line.trim() !== "") : [];
    this.editor.text = script;
    this.#showLesson();
  }

  #showLesson() {
    const listeners = { onChoose: (number) => this.#goTo(number), onCheck: (box) => this.check(box) };
    byId("tour").replaceChildren(...(this.#isLessonEdited ? [] : lessonOf(this.#notes, listeners)));
    byId("lesson").setAttribute("aria-pressed", String(this.#isLessonEdited));
  }

  /** The script with the notes of its lesson. */
  get text() {
    return this.#isLessonEdited ? this.editor.text : joined(this.editor.text, this.#notes);
  }

  /** Puts the notes of the lesson into the editor, or takes them out again. */
  async editLesson() {
    const { text } = this, isEdited = !this.#isLessonEdited;
    this.run.forget();
    await this.run.idle();
    if (isEdited) {
      this.#isLessonEdited = true;
      this.editor.text = text;
      this.#showLesson();
    } else {
      this.#take(text);
    }
    this.#again(isEdited ? "These are the script and its lesson: lines that begin with --#, --?, --! and --@." : "The lesson stands above the script.");
  }

  async #goTo(number) {
    await (number <= this.run.answers.length ? this.choose(number) : this.#execute(number, () => Math.min(number, this.run.count)));
  }

  /** Tells which checks of the lesson the script passes. */
  async check(box) {
    const checks = checksOf(this.#notes);
    try {
      const { fault, results } = await this.run.check(this.editor.text, checks);
      box.replaceChildren(...(fault ? [element("p", {}, `The script has a fault at line ${fault.word.line}, column ${fault.word.column}: nothing was checked.`)] : resultsOf(checks, results)));
    } catch (error) {
      this.#failed(error);
    }
  }

  // The same, with an entry in the history: Back leads back to what was there.
  async #enter(name) {
    history.pushState({ name }, "", this.examples.isBrought(name) ? `#${name}` : location.pathname + location.search);
    await this.#put(name);
  }

  // What the history leads to: an address, or a script that the page still has.
  async #goBack(name) {
    if (location.hash === "" || !(await this.#openAddress())) {
      await this.#openExample(this.examples.find(name) ? name : this.examples.first);
    }
  }

  async #choseExample(name) {
    await this.#enter(name);
    await this.runAll(this.examples.shownFirst(name));
  }

  #clear() {
    this.answers.show([]);
    this.answers.choose(0);
    this.panes.clear();
  }

  async #openExample(name, number = this.examples.shownFirst(name)) {
    await this.#put(name);
    await this.runAll(number);
  }

  async #openAddress() {
    try {
      const found = await scriptOf(location.hash);
      // The links for those who read the page aloud lead to parts of it.
      if (!found || byId(found.example)) {
        return false;
      }
      if (found.example !== undefined) {
        await this.#openNamed(found);
      } else {
        await this.#put(this.examples.add(found.script), found.limits);
        await this.runAll(found.number || undefined);
      }
    } catch (error) {
      await this.#openExample(this.examples.first);
      this.#say(`This address holds no script: ${error.message}.`, true);
    }
    return true;
  }

  /** @param {{example?: string, number: number}} found */
  async #openNamed({ example, number }) {
    if (!this.examples.find(example)) {
      throw new Error(`there is none of the name ${example}`);
    }
    await this.#openExample(example, number || undefined);
  }

  async #openFile() {
    const [file] = byId("file").files;
    byId("file").value = "";
    if (!file) {
      return;
    }
    try {
      // A file that is far too long isn't read at all.
      const script = file.size > 1 << 21 ? textOf({ length: file.size }) : textOf(new Uint8Array(await file.arrayBuffer()));
      await this.#enter(this.examples.add(withoutMark(script)));
      await this.runAll();
      if (script !== withoutMark(script)) {
        this.#say(`${byId("status").textContent} The byte order mark at the beginning of ${file.name} was left out.`);
      }
    } catch (error) {
      this.#say(`${file.name} was not opened: ${error.message}.`, true);
    }
  }

  get #name() {
    return this.examples.isOwn ? "script" : this.examples.chosen;
  }

  /** Writes the script to a file. */
  save() {
    download(this.text, `${this.#name}.sql`);
    this.#say(`The script is saved as ${this.#name}.sql.`);
  }

  /** Writes the transcript of the script to a file. */
  async saveTranscript() {
    try {
      download(await this.run.transcript(this.editor.text), `${this.#name}.out`);
      this.#say(`The transcript is saved as ${this.#name}.out.`);
    } catch (error) {
      this.#failed(error);
    }
  }

  /** Puts the script into the address, and the address into the clipboard where that is allowed. */
  async share() {
    const address = await addressOf(this.text, this.#chosen, this.limits.unusual);
    history.replaceState(history.state, "", address);
    const isCopied = await (navigator.clipboard?.writeText(location.href) ?? Promise.reject()).then(() => true, () => false);
    this.#say(`The script is in the address${isCopied ? ", which is copied" : ": copy it from there"}. It has ${count(location.href.length, "character")}.`);
  }

  // A lesson goes where nothing of its script is left, unless it is an exercise.
  #keepLesson() {
    if (this.#lessonLines.length === 0 || this.#isLessonEdited || checksOf(this.#notes).length > 0) {
      return;
    }
    const lines = new Set(this.editor.text.split("\n"));
    if (!this.#lessonLines.some((line) => lines.has(line))) {
      this.#notes = [];
      this.#lessonLines = [];
      this.#showLesson();
    }
  }

  #edited() {
    this.#keepLesson();
    this.examples.keep(this.text);
    this.kept.put(this.text);
    // The address holds another script now.
    if (location.hash || history.state?.name !== this.examples.chosen) {
      history.replaceState({ name: this.examples.chosen }, "", location.pathname + location.search);
    }
    this.#again("The script was changed: run it again.");
  }

  #limited(fault) {
    if (fault) {
      this.#say(fault, true);
    } else {
      this.#again("The limits were changed: run the script again.");
    }
  }

  #again(why) {
    this.#chosen = 0;
    this.run.forget();
    this.editor.mark([], null);
    this.#clear();
    this.#say(why);
  }

  #caret(number) {
    if (number > 0 && number <= this.run.answers.length && number !== this.#chosen) {
      this.choose(number, false);
    }
  }

  /** Executes the whole script, and chooses a statement: the one that is named, else the first that is refused, else the last. */
  async runAll(wanted) {
    const number = typeof wanted === "number" ? wanted : this.#chosen;
    await this.#execute(Infinity, () => {
      const refused = this.run.answers.findIndex((answer) => answer.kind === "refused") + 1;
      return (number <= this.run.answers.length && number) || (this.run.fault && this.run.answers.length + 1) || refused || this.run.answers.length;
    });
  }

  /** Executes up to the statement at the caret, in a new database where more was executed. */
  async runToHere() {
    const number = this.editor.statementAtCaret;
    if (number > 0) {
      await (number <= this.run.answers.length ? this.choose(number) : this.#execute(number, () => Math.min(number, this.run.count + (this.run.fault ? 1 : 0))));
    }
  }

  /** Executes what is selected, as a script of its own: Back leads back to the whole one. */
  async runSelection() {
    const { selected } = this.editor;
    if (selected.trim() === "") {
      this.#say("Nothing is selected in the script.");
      return;
    }
    await this.#enter(this.examples.add(selected));
    await this.runAll();
  }

  /** Goes on to the next statement, and executes it where that wasn't done. */
  async step() {
    const next = this.#chosen + 1;
    if (next <= this.run.answers.length) {
      await this.choose(next);
    } else {
      await this.#execute(next, () => Math.min(next, this.run.count + (this.run.fault ? 1 : 0)));
    }
    this.#reveal();
  }

  // Where the panes stand below each other, what a step did may be out of sight.
  #reveal() {
    if (matchMedia("(max-width: 860px)").matches) {
      byId("statement").scrollIntoView({ block: "start" });
    }
  }

  /** Goes back to the statement before. */
  async back() {
    if (this.#chosen > 1) {
      await this.choose(this.#chosen - 1);
      this.#reveal();
    }
  }

  async #execute(upTo, pick) {
    if (this.run.isBusy) {
      return;
    }
    const began = performance.now();
    let last = began;
    const running = setInterval(() => this.#showRunning(performance.now() - last), RUNNING_MS);
    try {
      await this.run.execute(this.editor.text, upTo, () => (last = performance.now()));
      clearInterval(running);
      this.#showAnswers();
      this.#sayRun(performance.now() - began);
      await this.choose(pick());
    } catch (error) {
      this.#failed(error);
    } finally {
      clearInterval(running);
    }
  }

  // The answers so far, the statement that runs, and how long it does.
  #showRunning(time) {
    if (this.run.answers.length !== this.answers.items.length) {
      this.answers.show(itemsOf(this.run, this.editor));
    }
    const whole = this.run.count > 0 ? ` statement ${(this.run.answers.length + 1).toLocaleString("en")} of ${this.run.count.toLocaleString("en")}` : " the script";
    this.#say(`Running${whole}${time < 1000 ? "" : `, for ${Math.floor(time / 1000)} s`}`);
  }

  #sayRun(time) {
    const { answers, fault, isWhole, isOpen } = this.run;
    const refused = answers.filter((answer) => answer.kind === "refused").length;
    const end = isWhole && isOpen ? " The transaction that is open at the end is rolled back." : "";
    const place = isWhole && fault ? ` No statement begins at line ${fault.line}, column ${fault.column}.` : "";
    this.#say(`${count(answers.length, "statement")}, ${refused} refused, ${time < 10 ? time.toFixed(1) : Math.round(time)} ms.${place}${end}`, place !== "");
  }

  #failed(error) {
    if (error.name === "Stopped" && this.run.script === null) {
      return;
    }
    this.#showAnswers();
    if (error.isTrap) {
      this.#say(`The engine stopped at statement ${error.at + 1} (${error.message}). Its session is thrown away; Run begins a new one.`, true);
    } else if (error.name === "Stopped") {
      this.#say(error.message === "stopped" ? `Stopped. ${count(this.run.answers.length, "statement")} of ${this.run.count.toLocaleString("en")} executed.` : `The worker failed: ${error.message}.`, error.message !== "stopped");
    } else {
      this.#say(error.message, true);
    }
  }

  #showAnswers() {
    const items = itemsOf(this.run, this.editor);
    this.answers.show(items);
    this.editor.mark(marksOf(items), wrongOf(this.run, this.editor));
  }

  /** Shows a statement that was executed. */
  async choose(number, isScrolled = true) {
    if (number < 1) {
      return;
    }
    const asked = ++this.#asked;
    this.#chosen = number;
    this.answers.choose(number);
    this.editor.choose(number, isScrolled);
    byId("back").disabled = number <= 1;
    if (number > this.run.answers.length) {
      this.panes.showFault(this.run.fault, number);
      return;
    }
    try {
      const detail = await this.run.view(number);
      if (asked === this.#asked) {
        const { at, end } = this.editor.statements[number - 1] ?? { at: 0, end: 0 };
        this.panes.show(detail, this.editor.text.slice(at, end), this.run.answers, this.run.count);
      }
    } catch (error) {
      this.#failed(error);
    }
  }
}
