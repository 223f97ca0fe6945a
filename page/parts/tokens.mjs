// The tokens of a text in SQL, and its statements.

/** The words that can't be names. */
export const KEYWORDS = new Set(
  `ACTION ADD AFTER ALL ALTER AND AS ATOMIC BEFORE BEGIN CASCADE CHAR CHARACTER CHECK COMMIT CONSTRAINT CONSTRAINTS COUNT CREATE DEFAULT
  DEFERRABLE DEFERRED DELETE DISTINCT DROP EACH END EXISTS FOR FOREIGN FROM FULL IMMEDIATE INITIALLY INSERT INT INTEGER INTO IS KEY MATCH
  NEW NO NOT NULL NULLS OF OLD ON OR PRIMARY REFERENCES REFERENCING RELEASE RESTRICT ROLLBACK ROW SAVEPOINT SELECT SET SIGNAL SIMPLE START
  STATEMENT TABLE TO TRANSACTION TRIGGER UNIQUE UPDATE VALUES VARCHAR VARYING WHEN WHERE WORK`.split(/\s+/),
);

const KINDS = ["comment", "text", "word", "number", "symbol", "space", "fault"];
const TOKEN = /(--[^\n]*)|('[^']*(?:''[^']*)*')|([A-Za-z_][A-Za-z0-9_]*)|([0-9]+)|(<>|<=|>=|[(),;.=<>+\-*])|([ \t\r\n]+)|([^])/gy;

/**
 * The tokens of a text in their order, with comments and without white space. A character at which no token begins is a fault.
 * @param {string} text
 * @returns {{kind: string, at: number, end: number, word: string}[]} `word` is in upper case for keywords and names
 */
export function tokensOf(text) {
  const tokens = [];
  for (const found of text.matchAll(TOKEN)) {
    const place = found.findIndex((part, at) => at > 0 && part !== undefined);
    const kind = KINDS[place - 1];
    if (kind !== "space") {
      const word = kind === "word" ? found[0].toUpperCase() : found[0];
      tokens.push({ kind: kind === "word" ? (KEYWORDS.has(word) ? "keyword" : "name") : kind, at: found.index, end: found.index + found[0].length, word });
    }
  }
  return tokens;
}

/**
 * The statements of a text: each from its first token up to its semicolon. What is left at the end is the last one, and not whole.
 * @param {{kind: string, at: number, end: number, word: string}[]} tokens
 * @returns {{at: number, end: number, isWhole: boolean, tokens: object[]}[]}
 */
export function statementsOf(tokens) {
  const statements = [];
  let own = [], isInBody = false;
  const close = (isWhole) => {
    statements.push({ at: own[0].at, end: own.at(-1).end, isWhole, tokens: own });
    own = [];
  };
  for (const token of tokens) {
    if (token.kind === "comment") {
      continue;
    }
    own.push(token);
    isInBody = token.word === "BEGIN" || (isInBody && token.word !== "END");
    if (token.word === ";" && !isInBody) {
      close(true);
    }
  }
  if (own.length > 0) {
    close(false);
  }
  return statements;
}
