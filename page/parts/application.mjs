// The page: it ties the editor, the worker and the panes together.

import { byId, element } from "./elements.mjs";
import { bytesOf, unzipped } from "./share.mjs";
import { Client } from "./client.mjs";
import { Controls } from "./controls.mjs";
import { listenForPrinting } from "./print.mjs";

const compiled = async () => WebAssembly.compile(await unzipped(bytesOf(byId("engine").textContent)));

async function start() {
  // The worker starts while the engine is compiled.
  const client = new Client(byId("worker").textContent, compiled());
  const controls = new Controls(client, JSON.parse(byId("examples").textContent));
  listenForPrinting();
  await controls.begin();
  document.documentElement.dataset.ready = String(Math.round(performance.now()));
}

start().catch((error) => {
  byId("status").className = "bad";
  byId("status").replaceChildren(element("span", {}, `This browser can't run the engine: ${error.message}`));
});
