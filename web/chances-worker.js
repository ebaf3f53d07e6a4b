// The start of the worker in which the library counts chances: it is given the module and lines, and tells the answer to each as it comes.

import { studyOf } from "./study.js";

onmessage = ({ data: { module, lines } }) => {
  const study = studyOf(new WebAssembly.Instance(module, {}));
  for (const line of lines) postMessage(study(line));
};
