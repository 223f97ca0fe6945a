// Blocks of SQL that run in any page, which loads this file as a module:
//
//     <sql-keep>CREATE TABLE t (a INT PRIMARY KEY);</sql-keep>
//
// The engine, sqlkeep.wasm, stands beside this file; it is loaded when the first block runs. docs/library/page.md tells the attributes.

import { define } from "./parts/block.mjs";

define({ worker: "/*WORKER*/", style: "/*STYLE*/", engine: new URL("sqlkeep.wasm", import.meta.url) });
