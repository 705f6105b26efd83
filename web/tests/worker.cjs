// A worker of Node in the place of the page's: it is given the modules and a limit of memory, and answers questions.
const {parentPort, workerData} = require("worker_threads");
const {answererOf} = require("../page/engine.js");
const {mostMemory, bytes} = workerData;
const modules = {fing: new WebAssembly.Module(bytes.fing), show: new WebAssembly.Module(bytes.show)};
const answer = answererOf(modules, mostMemory && BigInt(mostMemory));
parentPort.on("message", async question => parentPort.postMessage(await answer(question)));
