// What the tests of the page stand on: the modules that the page holds, workers over them, and a count of what was tried.
const fs = require("fs"), path = require("path"), zlib = require("zlib");
const {Worker} = require("worker_threads");

const TOP = path.join(__dirname, "../..");
const read = name => fs.readFileSync(path.join(TOP, name), "utf8");

// A WebAssembly module out of the page, by its id there.
function moduleOfPage(id) {
  const page = read("docs/playground/index.html");
  const [, text] = new RegExp(`<script type="text/plain" id="${id}">([\\w+/=\\s]*)</script>`).exec(page);
  return zlib.gunzipSync(Buffer.from(text, "base64"));
}

const bytes = {fing: moduleOfPage("module"), show: moduleOfPage("show-module")};

// Starts a worker as the page's asker wants it: its stack in MiB, and its memory in bytes where it has less.
function starter({stack = 60, memory} = {}) {
  return (onAnswer, onBreak) => {
    const data = {bytes, mostMemory: memory};
    const worker = new Worker(path.join(__dirname, "worker.cjs"), {workerData: data, resourceLimits: {stackSizeMb: stack}});
    worker.on("message", onAnswer);
    worker.on("error", error => onBreak(error.message));
    return {post: question => worker.postMessage(question), stop: () => worker.terminate()};
  };
}

// A worker that is asked and waited for: {ask(question), fing(words, source), stop()}.
function workerOf(limits) {
  let settle;
  const worker = starter(limits)(answer => settle(answer), detail => settle({status: -1, broken: "engine", detail, reply: ""}));
  const ask = question => new Promise(resolve => {
    settle = resolve;
    worker.post(question);
  });
  return {ask, fing: (words, source = "") => ask({words, source}), stop: worker.stop};
}

const count = {tried: 0, wrong: 0};

// Complains where a trial did not come out as it should.
function expect(name, found, wanted) {
  count.tried++;
  const [has, should] = [JSON.stringify(found), JSON.stringify(wanted)];
  if (has === should) return;
  count.wrong++;
  console.log(`${name}: has ${has?.slice(0, 300)} and should have ${should?.slice(0, 300)}`);
}

module.exports = {TOP, read, starter, workerOf, expect, count, bytes};
