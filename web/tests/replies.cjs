// The replies of the module in the page: the stored ones of the examples, each status, and the limits.
const fs = require("fs"), path = require("path"), {spawnSync} = require("child_process");
const {TOP, read, workerOf, expect} = require("./fing.cjs");

const LOOP = "val f = fix g (x : Int) : Int => g x val y = f 1";

function examples(folder = "examples") {
  return fs.readdirSync(path.join(TOP, folder)).filter(it => it.endsWith(".fing")).map(it => it.slice(0, -5)).sort();
}

// Each example as tools/check-examples has it: an accepted one has a stored value, and its term is well typed.
async function tryExamples(fing) {
  for (const name of examples()) {
    const source = read(`examples/${name}.fing`), check = read(`examples/${name}.check`);
    const isRefused = check.startsWith("refused ");
    const run = isRefused ? check : read(`examples/${name}.run`);
    const runStatus = isRefused ? 1 : run.startsWith("fault ") ? 3 : run.startsWith("spent ") ? 4 : 0;
    expect(`${name} check`, await fing(["check"], source), {status: isRefused ? 1 : 0, reply: check});
    expect(`${name} run`, await fing(["run"], source), {status: runStatus, reply: run});
    const term = await fing(["emit"], source);
    if (isRefused) expect(`${name} emit`, term, {status: 1, reply: check});
    else expect(`${name} verify`, await fing(["verify"], term.reply), {status: 0, reply: "well typed\n"});
  }
}

// The texts of units.
async function tryUnits(fing) {
  for (const name of examples("examples/units")) {
    const link = read(`examples/units/${name}.link`), status = link.startsWith("refused ") ? 1 : 0;
    expect(`${name} link`, await fing(["link"], read(`examples/units/${name}.fing`)), {status, reply: link});
  }
}

async function tryStatuses(fing) {
  expect("accepted", await fing(["run"], "val x = 1 + 2"), {status: 0, reply: "x = 3\n"});
  expect("refused", await fing(["check"], "val x = y"), {status: 1, reply: "refused 8-9 Unbound y\n"});
  expect("words", await fing(["check", "1"]), {status: 2, reply: ""});
  expect("a budget that is too large", await fing(["run", "--budget", "10000001"]), {status: 2, reply: ""});
  expect("a word with a line feed", await fing(["check\n"]), {status: 2, reply: ""});
  expect("division by zero", await fing(["run"], "val x = 1 / 0"), {status: 3, reply: "fault DivideByZero\n"});
  expect("overflow", await fing(["run"], "val x = 9223372036854775807 + 1"), {status: 3, reply: "fault Overflow\n"});
  expect("a spent budget", await fing(["run", "--budget", "500"], LOOP), {status: 4, reply: "spent 500\n"});
  expect("a budget of a million steps", await fing(["run"], LOOP), {status: 4, reply: "spent 1000000\n"});
}

// In `val x = (((1)))` the nest of the number is 4 and the parentheses; it may be 1,000.
async function tryDepth(fing) {
  const nested = count => "val x = " + "(".repeat(count) + "1" + ")".repeat(count);
  expect("a nest of 1,000", await fing(["run"], nested(996)), {status: 0, reply: "x = 1\n"});
  expect("a nest of 1,001", await fing(["run"], nested(997)), {status: 1, reply: "refused TooDeep 1005\n"});
}

async function trySize(fing) {
  const sized = bytes => "val x = 1 --".padEnd(bytes, "-");
  expect("1 MiB", await fing(["run"], sized(1048576)), {status: 0, reply: "x = 1\n"});
  expect("1 MiB and a byte", await fing(["run"], sized(1048577)), {status: 8, reply: ""});
}

// A reply that is longer than the first page: nine strings, doubled seventeen times.
async function tryLongReply(fing) {
  const lines = ["val x0 = {a = \"abcdefgh\", b = \"abcdefgh\"}"];
  for (let i = 1; i <= 17; i++) lines.push(`val x${i} = {a = x${i - 1}, b = x${i - 1}}`);
  const {status, reply} = await fing(["run"], lines.join("\n"));
  expect("the status of a long reply", status, 0);
  expect("the strings of a long reply", reply.split('"abcdefgh"').length - 1, 2 ** 19 - 2);
}

// With a small stack the engine breaks the call off, and the next call is answered.
async function tryStack() {
  const {fing, stop} = workerOf({stack: 0.3});
  const functor = "module F = fun (X : sig type t end) => struct type t = X.t end module M = struct type t = Int end ";
  const {status, broken} = await fing(["check"], functor + "module N = " + "F (".repeat(480) + "M" + ")".repeat(480));
  expect("a stack that is too small", {status, broken}, {status: -1, broken: "stack"});
  expect("the call after that", await fing(["run"], "val x = 1"), {status: 0, reply: "x = 1\n"});
  stop();
}

async function tryMemory() {
  const {fing, stop} = workerOf({memory: 36 << 20});
  expect("too little memory", await fing(["gen", "100"]), {status: 7, reply: ""});
  expect("the call after that", await fing(["run"], "val x = 1"), {status: 0, reply: "x = 1\n"});
  stop();
}

// The same bytes and status as a native program.
async function compare(fing, program) {
  const all = [["check"], ["emit"], ["emit", "--simplify"], ["link"], ["run", "--budget", "20000"]];
  const programs = examples().map(it => read(`examples/${it}.fing`));
  const units = examples("examples/units").map(it => read(`examples/units/${it}.fing`));
  const sources = [...programs, ...units, LOOP, "val x = 1 / 0", "val x = \"é\"", "", "val"];
  for (const source of sources) {
    for (const words of all) {
      const ran = spawnSync(program, words, {input: source, maxBuffer: 1 << 29});
      expect(`${words} ${source.slice(0, 30)}`, await fing(words, source), {status: ran.status, reply: ran.stdout.toString()});
    }
  }
  for (const size of [1, 30]) {
    const ran = spawnSync(program, ["gen", String(size)]);
    expect(`gen ${size}`, await fing(["gen", String(size)]), {status: ran.status, reply: ran.stdout.toString()});
  }
}

module.exports = async function replies(program) {
  const {fing, stop} = workerOf();
  await tryExamples(fing);
  await tryUnits(fing);
  await tryStatuses(fing);
  await tryDepth(fing);
  await trySize(fing);
  await tryLongReply(fing);
  await tryStack();
  await tryMemory();
  if (program) await compare(fing, program);
  stop();
};
