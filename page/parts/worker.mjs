// The worker: it holds a script in a session and answers the page. Messages: {id, call, ...}, answered by {id, ...} or {id, error}.

import { Engine, Trap } from "../sqlkeep.mjs";
import { Replay } from "./replay.mjs";

// So many answers are told one by one, since the next statement may be a slow one; then up to BATCH together.
const ALONE = 200, BATCH = 500, BATCH_MS = 100, MOST_BYTES = 1 << 20;
let engine = null, replay = null, ran = 0;

const calls = {
  begin({ module }) {
    engine = new Engine(module);
    return {};
  },

  // Reads a script. Its statements are executed later.
  load({ script, limits }) {
    replay?.session.close();
    replay = null;
    ran = 0;
    const bytes = new TextEncoder().encode(script).length;
    if (bytes > MOST_BYTES) {
      throw new Error(`The script is longer than 1,048,576 bytes: it has ${bytes.toLocaleString("en")}.`);
    }
    replay = new Replay(engine, script, limits);
    return { count: replay.count, fault: replay.fault, whole: replay.statements.filter((statement) => statement.isWhole).length };
  },

  // Executes up to the statement with this number, and tells the answers that weren't told yet.
  run({ id, upTo }) {
    if (upTo > ran) {
      replay.goTo(ran);
    }
    while (replay.at < upTo) {
      const answers = [], most = replay.at < ALONE ? 1 : BATCH, until = performance.now() + BATCH_MS;
      while (replay.at < upTo && answers.length < most && performance.now() < until) {
        answers.push(replay.step());
      }
      self.postMessage({ id, from: replay.at - answers.length, answers });
    }
    ran = Math.max(ran, upTo);
    return { isOpen: replay.session.inTransaction };
  },

  // The transcript of a whole script, as the program writes it, from a new database.
  transcript({ script, options }) {
    return engine.run(script, options);
  },

  // The checks of a lesson over a script, in a session of their own.
  check({ script, checks, options }) {
    const own = new Replay(engine, script, options);
    try {
      return { fault: own.fault, results: own.fault ? [] : own.check(checks) };
    } finally {
      own.session.close();
    }
  },

  view({ number }) {
    return { detail: replay.view(number) };
  },
};

// After a trap nothing of the session can be asked any more, so the script is read again when it is needed.
function failure(error) {
  const isTrap = error instanceof Trap;
  const at = replay?.at ?? 0;
  if (isTrap) {
    replay = null;
  }
  return { error: { name: error.name, message: error.message, status: error.status ?? null, isTrap, at } };
}

self.onmessage = ({ data }) => {
  try {
    if (["run", "view"].includes(data.call) && !replay) {
      throw new Error("no script is read");
    }
    self.postMessage({ id: data.id, isDone: true, ...calls[data.call](data) });
  } catch (error) {
    self.postMessage({ id: data.id, isDone: true, ...failure(error) });
  }
};
