// Types of sqlkeep.mjs.

/** A value of a row: NULL, an integer (a BigInt where a number isn't exact), or a text. */
export type Value = null | number | bigint | string;

export interface Options {
  /** How deep triggers may nest, 1 to 64; 16 if not given. */
  depth?: number;
  /** How many row changes a statement may make, 1 to 65536; 65536 if not given. */
  changes?: number;
  /** Whether `lines`, transcripts and `account` have the account of each statement. */
  explain?: boolean;
}

export interface Summary {
  accepted: number;
  refused: number;
  /** How many of the refused had cause 22: there was no memory. */
  memoryRefused: number;
  /** The byte at which something begins that is no statement; null if there is none. */
  faultAt: number | null;
  /** What the program writes. */
  transcript: string;
}

export type Outcome =
  | { kind: "done"; count: number; lines: string }
  | { kind: "changed"; count: number; lines: string }
  /** `columns` has the name of each column, empty for an expression. */
  | { kind: "rows"; count: number; columns: string[]; rows: Value[][]; lines: string };

/** Why a statement was refused. */
export interface Refused {
  /** The number of the cause, 1 to 22. */
  cause: number;
  /** The number and the name of the cause. */
  reason: string;
  constraint: string | null;
  trigger: string | null;
  signal: string | null;
  row: number | null;
  /** The lines of the program, with the account if one is asked for. */
  lines: string;
  /** The number of the statement: its place in its text from 1, or the number that was given. */
  number: number;
}

export type Attempt = Outcome | ({ kind: "refused" } & Refused);

export interface Violation {
  row: number;
  constraint: string;
  /** The values of the row in the columns of the constraint; empty for a CHECK. */
  key: Value[];
  /** The other row with this key, if the constraint is a key that two rows have. */
  other: number | null;
}

export interface Work {
  changes: number;
  undone: number;
  lookups: number;
}

/** A row that changed. `before` is null for an insert, `after` for a delete. */
export interface Change {
  kind: "insert" | "delete" | "update";
  table: string;
  row: number;
  before: Value[] | null;
  after: Value[] | null;
}

/** A foreign key that acted on a row. */
export interface Action {
  kind: "action";
  constraint: string;
  action: "CASCADE" | "SET NULL" | "SET DEFAULT";
  table: string;
  row: number;
}

/** A trigger that ran: the row that it saw before and after, or the rows of its transition tables, and what its statements did. */
export interface TriggerRun {
  kind: "trigger";
  trigger: string;
  old: Value[] | null;
  new: Value[] | null;
  saw: Change[];
  statements: BodyStatement[];
}

/** A statement of a trigger's body. One that is refused at once has no entries either, and no `changesNothing`. */
export interface BodyStatement {
  kind: "statement";
  place: number;
  entries: Entry[];
  changesNothing?: true;
}

/** A trigger whose body didn't run, since its WHEN was false or unknown. */
export interface TriggerSkipped {
  kind: "skipped";
  trigger: string;
  old: Value[] | null;
  new: Value[] | null;
  when: "false" | "unknown";
}

/** A row that a refusal is about, and why. ALTER TABLE tells so of a constraint that it doesn't add, which no table has. */
export interface ViolationEntry {
  kind: "violation";
  constraint: string;
  /** What the constraint asks, as "PRIMARY KEY (ID)", if its name was generated. */
  rule?: string;
  table: string;
  row: number;
  values: Value[];
  reason: "condition" | "null" | "key" | "null key" | "absent" | "some nulls" | "restrict" | "conflict";
  /** The condition of a CHECK, as "PRICE > 0", and with the values of the row, as "-1 > 0". */
  condition?: string;
  withValues?: string;
  /** The column that is null, or that two foreign keys set to different values. */
  column?: string;
  /** The other row with the same key, and its values. */
  otherRow?: number;
  /** The table that the row refers to; `other` has the key. */
  otherTable?: string;
  other?: Value[];
  /** Of two foreign keys that disagree: the earlier one, what it sets the column to, and what the constraint sets it to. */
  otherConstraint?: string;
  otherValue?: Value;
  value?: Value;
}

/** The savepoints that stand where RELEASE or ROLLBACK TO names one that isn't there, the earliest first. */
export interface Savepoints {
  kind: "savepoints";
  standing: string[];
}

/** A line that tells the name that a refusal is about. */
export interface Note {
  kind: "note";
  text: string;
}

export type Entry = Change | Action | TriggerRun | TriggerSkipped | ViolationEntry | Savepoints | Note;

export interface Column {
  name: string;
  type: "INTEGER" | "VARCHAR";
  /** The most characters of a VARCHAR. */
  length: number | null;
  default: Value;
}

export interface Table {
  name: string;
  columns: Column[];
}

export type ReferentialAction = "NO ACTION" | "RESTRICT" | "CASCADE" | "SET NULL" | "SET DEFAULT";

export interface Constraint {
  name: string;
  table: string;
  kind: "NOT NULL" | "CHECK" | "UNIQUE" | "PRIMARY KEY" | "FOREIGN KEY";
  /** Empty for a CHECK. */
  columns: string[];
  isDeferrable: boolean;
  isInitiallyDeferred: boolean;
  /** Whether its mode is deferred now: SET CONSTRAINTS sets it, and at the end of the transaction it is the initial one again. */
  isDeferred: boolean;
  nullsNotDistinct: boolean;
  /** The table and the columns that a foreign key refers to. */
  referenced: string | null;
  referencedColumns: string[];
  isMatchFull: boolean;
  onDelete: ReferentialAction | null;
  onUpdate: ReferentialAction | null;
  /** The condition of a CHECK as SQL text. */
  condition: string | null;
}

export interface Trigger {
  name: string;
  table: string;
  time: "BEFORE" | "AFTER";
  event: "INSERT" | "UPDATE" | "DELETE";
  forEach: "ROW" | "STATEMENT";
  /** The columns of UPDATE OF. */
  columns: string[];
  /** How many statements its body has. */
  statements: number;
}

export interface Catalogue {
  tables: Table[];
  constraints: Constraint[];
  triggers: Trigger[];
}

/** A call that could not be made. */
export class EngineError extends Error {
  status: number;
}

/** The engine stopped by a trap. The session is given up, and so is its database. */
export class Trap extends EngineError {}

/** Where a statement is in its text: bytes of it. */
export interface Span {
  /** The first byte of its first word. */
  begin: number;
  /** The byte behind its semicolon. */
  end: number;
}

/** Where a text or a template has its fault: bytes of it. */
export interface Fault {
  /** Where the statement begins that isn't one. */
  at: number;
  /** Where the first word begins that can't stand where it does; the text's end where more should follow. */
  word: number;
  /** Where that word ends; where it begins, if no token begins there. */
  end: number;
  /** Whether the text ends within the statement. */
  isCut: boolean;
}

/** A text with something that is no statement. */
export class SyntaxFault extends Error implements Fault {
  at: number;
  word: number;
  end: number;
  isCut: boolean;
  /** The line and the column, in characters, of the first word that can't stand where it does, from 1; and that word, empty if none begins there. */
  line: number;
  column: number;
  text: string;
}

/** A statement that was refused. Its message is a sentence: the name of the cause, what it is of, and why. */
export class Refusal extends Error implements Refused {
  cause: number;
  reason: string;
  constraint: string | null;
  trigger: string | null;
  signal: string | null;
  row: number | null;
  lines: string;
  number: number;
}

export class Engine {
  open(options?: Options): Session;
  run(script: string | Uint8Array, options?: Options): Summary;
}

export class Session {
  explain(asked?: boolean): void;
  run(script: string | Uint8Array): Summary;
  execute(text: string | Uint8Array, values?: readonly Value[]): Outcome[];
  steps(text: string | Uint8Array, values?: readonly Value[]): Generator<Outcome>;
  read(text: string | Uint8Array, values?: readonly Value[]): { statements: number; faultAt: number | null };
  readonly fault: Fault | null;
  place(at: number | bigint): Span | null;
  readonly message: string;
  attempt(at: number | bigint, number?: number | bigint): Attempt;
  query(text: string | Uint8Array, values?: readonly Value[]): Value[][];
  readonly account: Entry[];
  catalogue(): Catalogue;
  dump(): string[];
  commit(): void;
  rollback(): void;
  /** The name is folded to upper case. */
  rollbackTo(name: string): void;
  readonly inTransaction: boolean;
  pending(): Violation[];
  work(): Work;
  close(): void;
  [Symbol.dispose](): void;
}

declare global {
  interface SymbolConstructor {
    readonly dispose: unique symbol;
  }
}

/** Makes an engine of the bytes of sqlkeep.wasm, or of a module that was compiled of them. */
export function load(source: BufferSource | WebAssembly.Module): Promise<Engine>;
