// What the page loads: drafts, links to examples, and the programs that the explanations show; and where its links lead.
const {read, workerOf, expect} = require("./fing.cjs");
const {keptIn} = require("../page/kept.js");
const {exampleFragment, fieldsOf, fragmentOf, loadedBy, DRAFT, OTHER} = require("../page/link.js");
const {commandsOf} = require("../page/commands.js");

// The storage of a browser, in which at most `room` characters fit.
function storageOf(room = Infinity) {
  const texts = new Map();
  return {
    getItem: key => texts.get(key) ?? null,
    setItem(key, text) {
      if (text.length > room) throw new Error("full");
      texts.set(key, text);
    },
  };
}

function refused() {
  throw new Error("refused");
}

// After a reload, what was kept is read from the same storage.
function tryDraft() {
  const storage = storageOf(), draft = keptIn(() => storage, "draft");
  expect("no draft", draft.read(), null);
  draft.keep("val x = 1");
  draft.keep("val x = 2");
  keptIn(() => storage, "theme").keep("dark");
  expect("the draft", draft.read(), "val x = 2");
  expect("the draft after a reload", keptIn(() => storage, "draft").read(), "val x = 2");
  draft.keep("");
  expect("an empty draft after a reload", keptIn(() => storage, "draft").read(), "");
}

function tryNoStorage() {
  const small = storageOf(3);
  for (const [name, storage] of [["refused", refused], ["full", () => small], ["absent", () => undefined]]) {
    const draft = keptIn(storage, "draft");
    expect(`no draft, ${name}`, draft.read(), null);
    draft.keep("val x = 1");
    expect(`a draft, ${name}`, draft.read(), "val x = 1");
    expect(`a draft after a reload, ${name}`, keptIn(storage, "draft").read(), null);
  }
}

// What the page loads for a fragment, as [name, source, whether there is a notice].
async function loaded(fragment, draft) {
  const fields = await fieldsOf(fragment).catch(() => null);
  const {name, source = null, notice} = loadedBy(fields, {names: ["counter", "sets"], first: "counter", draft});
  return [name, source, notice ?? ""];
}

async function tryLoading() {
  const link = await fragmentOf({source: "val y = 2", command: "run", budget: "77"});
  expect("neither a link nor a draft", await loaded("", null), ["counter", null, ""]);
  for (const fragment of ["", "#", "#show=run"]) {
    expect(`a draft at ${fragment}`, await loaded(fragment, "val x = 1"), [DRAFT, "val x = 1", ""]);
  }
  expect("an empty draft", await loaded("", ""), [DRAFT, "", ""]);
  for (const draft of [null, "val x = 1"]) {
    expect("a link to a program", await loaded(link, draft), [OTHER, "val y = 2", ""]);
    expect("a link to an example", await loaded("#example=sets", draft), ["sets", null, ""]);
    const [name, source, notice] = await loaded("#example=nosuch", draft);
    expect("a link to no example", [name, source], ["counter", null]);
    expect("its notice", notice.startsWith("There is no example “nosuch”."), true);
    expect("a link that is right again", await loaded(exampleFragment(name), draft), ["counter", null, ""]);
    const cut = await loaded(link.slice(0, -4), draft);
    expect("a link that is cut off", [cut[0], cut[1], cut[2] !== ""], ["counter", null, true]);
  }
  expect("a name with signs", await fieldsOf(exampleFragment("a & b #1")), {example: "a & b #1"});
}

// The blocks of indented code of a page in Markdown.
function blocksOf(page) {
  return page.match(/(?:^ {4}.*\n)+/gm).map(block => block.replaceAll(/^ {4}/gm, ""));
}

// Each program that the page offers to try has the reply that the page of errors shows for it.
async function tryCommands(fing) {
  const commands = blocksOf(read("docs/errors.md")).flatMap(block => commandsOf(block) ?? []);
  const offered = commands.filter(({program}) => program);
  expect("the number of programs to try", offered.length >= 30, true);
  for (const {lines, reply, program} of offered) {
    expect(lines, (await fing([program.word], program.source)).reply, reply + "\n");
  }
}

function tryPlainness() {
  const [one, two] = commandsOf("$ printf 'val x = 1\\nval y = x\\n' | ./fing run\nx = 1\ny = 1\n$ ./fing check < a\nb\n");
  expect("a plain command", one.program, {source: "val x = 1\nval y = x\n", word: "run"});
  expect("its reply", one.reply, "x = 1\ny = 1");
  expect("another command", [two.program, two.lines], [null, "$ ./fing check < a\nb"]);
  expect("an echo", commandsOf("$ echo 'val x = \"%\"' | ./fing emit\n")[0].program, {source: "val x = \"%\"\n", word: "emit"});
  for (const command of [
    "echo 'a\\nb' | ./fing check", "printf 'a%s' | ./fing check", "printf 'a\\tb' | ./fing check", "echo 'omega 2' | ./fing verify",
    "echo 'a' | head -c 1", "echo 'a' | ./fing emit | ./fing verify", "echo \"a\" | ./fing check", "echo 'a' 'b' | ./fing check",
  ]) expect(command, commandsOf(`$ ${command}\n`)[0].program, null);
  expect("a program alone", commandsOf("val x = 1\n"), null);
}

// The anchor of a heading, as web sites for Markdown make it.
function anchorOf(heading) {
  return "#" + heading.replace(/^#+ /, "").toLowerCase().replaceAll(/[^\w\- ]/g, "").replaceAll(" ", "-");
}

function tryWays() {
  const links = [...read("web/page/page.html").matchAll(/<a ([^>]*)>/g)].map(it => it[1]);
  expect("the number of links", links.length >= 6, true);
  for (const link of links) {
    const [, file, anchor] = /^href="\.\.\/([\w./-]+)(#[\w-]+)?" target="_blank" rel="noopener"$/.exec(link) ?? [];
    const page = file ? read(`docs/${file}`) : "";
    const anchors = page.split("\n").filter(line => /^#+ /.test(line)).map(anchorOf);
    expect(`the link ${link}`, page !== "" && (anchor === undefined || anchors.includes(anchor)), true);
  }
}

module.exports = async function programs() {
  const {fing, stop} = workerOf();
  tryDraft();
  tryNoStorage();
  await tryLoading();
  await tryCommands(fing);
  tryPlainness();
  tryWays();
  stop();
};
