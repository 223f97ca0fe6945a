// The page's side of the worker: calls that are answered later, and an end to what takes too long.

/** A call that the worker refused; `isTrap` tells that the engine stopped. */
export class WorkerFailure extends Error {
  constructor({ name, message, isTrap, at }) {
    super(message);
    Object.assign(this, { name, isTrap, at });
  }
}

export class Client {
  #calls = new Map();
  #next = 0;
  #worker = null;
  #begun = null;

  /**
   * @param {string} source the text of the worker
   * @param {Promise<WebAssembly.Module>} module
   */
  constructor(source, module) {
    this.address = URL.createObjectURL(new Blob([source], { type: "text/javascript" }));
    this.module = module;
    this.#start();
  }

  #start() {
    this.#worker = new Worker(this.address);
    this.#worker.onmessage = ({ data }) => this.#hear(data);
    this.#worker.onerror = (event) => this.#fail(event.message || "the worker stopped");
    this.#begun = this.module.then((module) => this.#send("begin", { module }, () => {}));
    this.#begun.catch(() => {});
  }

  /** Asks the worker for something. `onPart` hears what comes before the answer. */
  async call(name, words = {}, onPart = () => {}) {
    await this.#begun;
    return this.#send(name, words, onPart);
  }

  #send(name, words, onPart) {
    const id = this.#next++;
    return new Promise((resolve, reject) => {
      this.#calls.set(id, { resolve, reject, onPart });
      this.#worker.postMessage({ id, call: name, ...words });
    });
  }

  /** Ends the worker and all that it does, and starts another one. */
  stop() {
    this.#worker.terminate();
    this.#fail("stopped");
    this.#start();
  }

  #fail(message) {
    const calls = [...this.#calls.values()];
    this.#calls.clear();
    calls.forEach((call) => call.reject(new WorkerFailure({ name: "Stopped", message, isTrap: false, at: 0 })));
  }

  #hear(data) {
    const call = this.#calls.get(data.id);
    if (!call) {
      return;
    }
    if (!data.isDone) {
      call.onPart(data);
      return;
    }
    this.#calls.delete(data.id);
    if (data.error) {
      call.reject(new WorkerFailure(data.error));
    } else {
      call.resolve(data);
    }
  }
}
