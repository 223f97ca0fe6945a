// Uses the library as its types say; it is compiled and never run.
import { load, Refusal, Session, SyntaxFault, type Value } from "sqlkeep";

const values: readonly Value[] = [1, 2n, "text", null];

export async function used(bytes: Uint8Array): Promise<Value[][]> {
  const engine = await load(bytes), session: Session = engine.open({ depth: 3, explain: true });
  try {
    for (const outcome of session.steps("SELECT a FROM t WHERE a = ?", values)) {
      if (outcome.kind === "rows") {
        return outcome.rows;
      }
    }
    return session.query(bytes, [session.place(0n)?.begin ?? null]);
  } catch (error) {
    if (error instanceof SyntaxFault) {
      return [[error.line, error.column, error.text, error.word]];
    }
    if (error instanceof Refusal) {
      return [[error.message, error.signal, error.row]];
    }
    throw error;
  } finally {
    session[Symbol.dispose]();
  }
}

// @ts-expect-error an option that isn't there
export const wrong = async (bytes: Uint8Array) => (await load(bytes)).open({ explian: true });
