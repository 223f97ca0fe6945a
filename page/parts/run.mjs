// A script that is being run: its answers so far, and the worker that makes them.

export class Run {
  /** @type {{line: string, kind: string, pending: number | null}[]} */
  answers = [];
  script = null;
  count = 0;
  fault = null;
  isOpen = false;
  #busyCalls = 0;
  /** @type {((isBusy: boolean) => void) | null} is called when work begins and when it ends */
  onBusy = null;
  #isLoaded = false;

  /** @param {import("./client.mjs").Client} client @param {() => {depth: number, changes: number}} limits */
  constructor(client, limits) {
    this.client = client;
    this.limits = limits;
  }

  get isBusy() {
    return this.#busyCalls > 0;
  }

  /** Ends what is being done, and forgets the answers: the script is another one. */
  forget() {
    if (this.isBusy) {
      this.stop();
    }
    this.answers = [];
    this.script = null;
    this.#isLoaded = false;
  }

  async #load(script) {
    if (this.#isLoaded && script === this.script) {
      return;
    }
    if (script !== this.script) {
      this.answers = [];
    }
    const { count, fault } = await this.client.call("load", { script, limits: this.limits() });
    Object.assign(this, { script, count, fault });
    this.#isLoaded = true;
  }

  /**
   * Executes a script up to a statement, or all of it.
   * @param {string} script
   * @param {number} upTo
   * @param {() => void} onPart is called when there are more answers
   */
  async execute(script, upTo, onPart) {
    await this.#busy(async () => {
      await this.#load(script);
      const last = Math.min(upTo, this.count);
      const { isOpen } = await this.client.call("run", { upTo: last }, ({ from, answers }) => {
        this.answers = from === this.answers.length ? this.answers.concat(answers) : [...this.answers.slice(0, from), ...answers];
        onPart();
      });
      this.isOpen = isOpen;
    });
  }

  /** All that is to be seen after a statement that was executed. */
  async view(number) {
    return this.#busy(async () => {
      await this.#load(this.script);
      return (await this.client.call("view", { number })).detail;
    });
  }

  /** What the program writes for a script. */
  async transcript(script) {
    return this.#busy(async () => (await this.client.call("transcript", { script, options: this.limits() })).transcript);
  }

  /** What comes of the checks of a lesson behind a script. */
  async check(script, checks) {
    return this.#busy(async () => this.client.call("check", { script, checks, options: this.limits() }));
  }

  async #busy(work) {
    this.#busyCalls += 1;
    this.onBusy?.(true);
    try {
      return await work();
    } catch (error) {
      this.#isLoaded &&= !error.isTrap && error.name !== "Stopped";
      throw error;
    } finally {
      this.#busyCalls -= 1;
      this.onBusy?.(this.isBusy);
    }
  }

  /** Ends what the worker does. The answers so far stay. */
  stop() {
    this.#isLoaded = false;
    this.client.stop();
  }

  /** Comes when nothing is being done any more. */
  async idle() {
    while (this.isBusy) {
      await new Promise((resolve) => setTimeout(resolve, 0));
    }
  }

  /** Whether each statement was executed. */
  get isWhole() {
    return this.script !== null && this.answers.length === this.count;
  }
}
