// The module of WebAssembly, for `require`, which can't wait. An engine that has no vectors takes the module without them.

const { readFileSync } = require("node:fs");
const { join } = require("node:path");

const MODULE = join(__dirname, HAS_VECTORS ? "riichi_desk.wasm" : "riichi_desk_plain.wasm");
const instance = new WebAssembly.Instance(new WebAssembly.Module(readFileSync(MODULE)), {});
