// The module of WebAssembly, for `import`. An engine that has no vectors takes the module without them, which is slower.

import { HAS_VECTORS } from "./vectors.js";

const MODULE = HAS_VECTORS ? new URL("./riichi_desk.wasm", import.meta.url) : new URL("./riichi_desk_plain.wasm", import.meta.url);

async function bytesOfModule() {
  if (MODULE.protocol === "file:" && typeof process === "object") {
    const { readFile } = await import("node:fs/promises");
    return readFile(MODULE);
  }
  const told = await fetch(MODULE);
  if (!told.ok) throw new Error(`${MODULE}: ${told.status}`);
  return told.arrayBuffer();
}

export const { instance } = await WebAssembly.instantiate(await bytesOfModule(), {});
