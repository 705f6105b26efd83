// The pages for people: those that the tests of fing_show and the pages of the documentation have, and the limits.
const fs = require("fs"), path = require("path"), {spawnSync} = require("child_process");
const {TOP, read, workerOf, expect, bytes} = require("./fing.cjs");
const {showOf, VIEWS} = require("../page/engine.js");
const {partsOf, verdictOf} = require("../page/replies.js");
const {treeOf, targetFrom} = require("../page/derivations.js");
const {fragmentOf, fieldsOf} = require("../page/link.js");

const TESTS = "crates/fing_show/src";
const TABLES = "tests.rt"; // has a call for each table of rows, with its view
const TABLE = /^ {4}(?:refused|accepted)\(\s*&rt,\s*alloc,\s*View::(\w+(?:\(Form::\w+\))?),\s*&(?:(\w+)::)?([A-Z_]+),?\s*\)\?;$/gm;
const OF_CODE = {
  Source: "page", Paper: "paper", Latex: "paper-latex", Term: "term", TermLatex: "term-latex",
  "Derivation(Form::Text)": "derivation", "Derivation(Form::Html)": "derivation-html",
};
const OF_OPTIONS = {
  "": "page", "--paper": "paper", "--latex": "paper-latex", "--term": "term", "--latex --term": "term-latex", "--steps": "steps",
  "--derivation": "derivation", "--derivation --html": "derivation-html",
};
const RUNS = "WHOLE_RUNS"; // the table of runs that end within the steps that are shown

// The value of a literal in Rattle, without its quotes.
function valueOf(literal) {
  const escapes = {n: "\n", t: "\t", r: "\r", 0: "\0"};
  return literal.replaceAll(/\\\n\s*|\\(.)/g, (whole, escaped) => escaped === undefined ? "" : escapes[escaped] ?? escaped);
}

// The rows of a table of a test: sources and their pages.
function rowsOf(file, name) {
  const [, size, text] = new RegExp(`^(?:pub\\(crate\\) )?const ${name}: (\\[\\(&str, &str\\); \\d+\\]) = ([^]*?)^[\\])]+;`, "m").exec(file);
  const values = [...text.matchAll(/"((?:\\[^]|[^"\\])*)"/g)].map(it => valueOf(it[1]));
  const count = Number(/\d+/.exec(size)[0]);
  expect(`the rows of ${name}`, values.length, 2 * count);
  return Array.from({length: count}, (_, row) => ({source: values[2 * row], page: values[2 * row + 1]}));
}

// The pages that the tests of the crate have, each with its view; not those of a view that the module does not have.
function pagesOfTests() {
  const tables = read(`${TESTS}/${TABLES}`);
  const homeOf = rows => new RegExp(`^use crate::(\\w+)::${rows};`, "m").exec(tables)?.[1];
  const pages = [...tables.matchAll(TABLE)].filter(([, view]) => view in OF_CODE).flatMap(([, view, named, rows]) => {
    const home = named ?? homeOf(rows);
    return rowsOf(home ? read(`${TESTS}/${home}.rt`) : tables, rows).map(row => ({...row, view: OF_CODE[view], name: "a.fing"}));
  });
  const runs = rowsOf(read(`${TESTS}/step_tests.rt`), RUNS).map(row => ({...row, view: "steps", name: "a.fing"}));
  return [...pages, ...runs];
}

// The pages that a page of the documentation shows for commands that give a program, or a file, to fing-show, in a view
// that the module has.
function pagesOfCommands(text) {
  const found = text.matchAll(/^ {4}\$ (?:echo '([^'\\]*)' \| )?fing-show((?: --[a-z]+)*)(?: (examples\/[\w-]+\.fing))?\n((?: {4}(?!\$).*\n)+)/gm);
  return [...found].filter(([, , options]) => options.trim() in OF_OPTIONS).map(([, typed, options, file, page]) => ({
    source: file ? read(file) : typed + "\n",
    view: OF_OPTIONS[options.trim()],
    name: file ?? "<stdin>",
    page: page.replaceAll(/^ {4}/gm, ""),
  }));
}

async function tryPages(ask, pages) {
  for (const {source, view, name, page} of pages) {
    const title = `${view} of ${source.slice(0, 60)}`, status = page.startsWith("error: ") ? 1 : 0;
    const answer = await ask({words: ["check"], source, view, name});
    expect(title, [answer.status, answer.page], [status, {status, reply: page}]);
    const parts = partsOf(page);
    expect(`the parts of ${title}`, parts && parts.title + parts.excerpt + parts.rest, status === 1 ? page : null);
    if (parts) expect(`the mark of ${title}`, /^ +\| +\^+$/.test(parts.excerpt.trimEnd().split("\n")[3]), true);
  }
}

// What a tree stands for, as HTML.
function htmlOf(part) {
  if (typeof part === "string") {
    return part.replaceAll("&", "&amp;").replaceAll("<", "&lt;").replaceAll(">", "&gt;").replaceAll("\"", "&quot;");
  }
  const {name, href, parts} = part, attributes = {details: " open", div: " class=\"leaf\"", a: ` href="${href}"`};
  return `<${name}${attributes[name] ?? ""}>${parts.map(htmlOf).join("")}</${name}>`;
}

function linksIn(parts) {
  return parts.flatMap(it => it.parts ? [it.href ?? [], linksIn(it.parts)].flat() : []);
}

// A derivation in HTML is a tree that has all that stands in it, and its links lead to pages of the repository.
function tryTree(title, page) {
  const tree = treeOf(page), [, body] = /<body>\n([^]*)<\/body>\n<\/html>\n$/.exec(page) ?? [];
  expect(`the tree of ${title}`, tree && tree.map(htmlOf).join(""), body);
  const targets = new Set(linksIn(tree ?? []).map(it => targetFrom(it).split("#")[0]));
  expect(`the links of ${title}`, targets.size >= 2, true);
  for (const target of targets) expect(`the link ${target}`, fs.existsSync(path.join(TOP, "docs/playground", target)), true);
}

// What stands in the body of a page of HTML, and what of it is a tree.
function tryTrees() {
  const {page} = rowsOf(read(`${TESTS}/derivation_tests.rt`), "IN_HTML")[0], inBody = text => `<!DOCTYPE html>\n<body>\n${text}`;
  tryTree("a comparison", page);
  const leaf = text => ({name: "div", parts: [text]});
  expect("signs in a text", treeOf(inBody("<div class=\"leaf\">&lt;&amp;lt;&quot;</div>\n</body>\n</html>\n")), [leaf("<&lt;\""), "\n"]);
  const begun = "<details open><summary>a</summary>\n<div class=\"leaf\">b";
  const opened = {name: "details", parts: [{name: "summary", parts: ["a"]}, "\n"]};
  expect("a page that is cut off in a line", treeOf(inBody(begun)), [opened]);
  expect("one that is cut off in a tag", treeOf(inBody(begun + "</div>\n</det")), [{...opened, parts: [...opened.parts, leaf("b"), "\n"]}]);
  for (const text of [
    "<script>a</script>", "<img src=x>", "<p onclick=\"a\">a</p>", "<a href=\"javascript:a\">a</a>", "<a href=\"docs/a\" id=\"b\">a</a>",
    "<p>a</span>", "a</p>", "a < b", "a > b", "<!-- a -->",
  ]) expect(`no tree of ${text}`, treeOf(inBody(text + "\n</body>\n</html>\n")), null);
  for (const text of ["", "pure\nval x : Int\n", "error: a\n<body>\n<p>a</p>\n</body>\n", "<!DOCTYPE html>\n<title>"]) {
    expect(`no tree of the page ${text}`, treeOf(text), null);
  }
}

const LOOP = "val f = fix g (x : Int) : Int => g x val y = f 1";
const RUN = ["run", "--budget", "1000000"];

// The answer with the steps of a run says how the run ends, and its page has the verdict.
async function tryRuns(ask) {
  const said = async source => {
    const {status, reply, page} = await ask({words: RUN, source, view: "steps"});
    return [status, reply, page?.status, page?.reply.split("\n").slice(-3).join("\n")];
  };
  expect("the run to a value", await said("val x = 1 + 2"), [0, "x = 3\n", 0, "value after 2 steps\nx = 3\n"]);
  const fault = "fault DivideByZero at step 1\n  let x0 : {.val : int} = {.val = «1 / 0»} in {x = x0}\n";
  expect("the run to a fault", await said("val x = 1 / 0"), [3, "fault DivideByZero\n", 0, fault]);
  const spent = "… 999980 steps are not shown\nspent: no value and no fault in 1000000 steps\n";
  expect("a run that does not end", await said(LOOP), [4, "spent 1000000\n", 0, spent]);
  const [status, reply, pageStatus] = await said("val x = y");
  expect("the run of a refused program", [status, reply, pageStatus], [1, "refused 8-9 Unbound y\n", 1]);
  const {text} = verdictOf({status: 3, reply: "fault DivideByZero\n", words: RUN}, null);
  expect("the verdict of a fault", text, "Accepted, but the run met a fault: DivideByZero");
}

// The derivation of each accepted example is a tree.
async function tryDerivations(ask) {
  const files = fs.readdirSync(path.join(TOP, "examples")).filter(it => it.endsWith(".fing"));
  for (const name of files) {
    const {status, page} = await ask({words: ["check"], source: read(`examples/${name}`), view: "derivation-html", name});
    if (status === 0) tryTree(name, page.reply);
    else expect(`no tree of ${name}`, [page.status, treeOf(page.reply)], [1, null]);
  }
}

// The type of each value is twice as long as the one before it.
function doubled(count) {
  return ["val x0 = 1", ...Array.from({length: count}, (_, i) => `val x${i + 1} = {a = x${i}, b = x${i}}`)].join("\n");
}

async function tryLimits(ask) {
  const page = async (view, source) => (await ask({words: ["check"], source, view})).page;
  const nested = "val x = " + "(".repeat(996) + "1" + ")".repeat(996);
  expect("the page of a nest of 1,000", await page("page", nested), {status: 0, reply: "pure\nval x : Int\n"});
  expect("the page of 1 MiB", await page("page", "val x = 1 --".padEnd(1048576, "-")), {status: 0, reply: "pure\nval x : Int\n"});
  const long = await page("page", doubled(16));
  expect("a page that is longer than its first room", [long.status, long.reply.split("Int").length - 1], [0, 2 ** 17 - 1]);
  expect("no page of a source that is too long", await page("page", "val x = 1 --".padEnd(1048577, "-")), undefined);
}

// What the module answers where there is no page.
async function tryStatuses() {
  const module = new WebAssembly.Module(bytes.show), show = showOf(module);
  for (const view of [Object.keys(VIEWS).length, 255]) {
    expect(`the view ${view}`, await show(view, "a", "val x = 1"), {status: 2, reply: ""});
  }
  expect("a source that is too long", await show(0, "a", "val x = 1 --".padEnd(1048577, "-")), {status: 8, reply: ""});
  expect("too little memory", await showOf(module, 36n << 20n)(0, "a", doubled(16)), {status: 7, reply: ""});
  expect("a name in a page", (await show(0, "b/c.fing", "val x = y")).reply.split("\n")[1], " --> b/c.fing:1:9");
}

async function tryPageLinks() {
  for (const command of ["page", "paper", "term", "derivation", "steps"]) {
    const fragment = await fragmentOf({source: "val x = 1", command, latex: true, plain: true});
    const latex = ["paper", "term"].includes(command) || undefined, plain = command === "derivation" || undefined;
    expect(`a link to ${command}`, await fieldsOf(fragment), {command, latex, plain, source: "val x = 1"});
  }
}

// The same bytes and verdict as a native program, for each example and each view. Of steps the program has the status of the
// run, which is 3 or 4 for some accepted programs.
async function compare(ask, program) {
  const files = fs.readdirSync(path.join(TOP, "examples")).filter(it => it.endsWith(".fing"));
  for (const name of files.map(it => `examples/${it}`)) {
    for (const [options, view] of Object.entries(OF_OPTIONS)) {
      const words = [...options.split(" ").filter(it => it), name];
      const {status, stdout} = spawnSync(program, words, {cwd: TOP, encoding: "utf8", maxBuffer: 1 << 28});
      const {page} = await ask({words: ["check"], source: read(name), view, name});
      expect(`fing-show ${options} ${name}`, page, {status: [3, 4].includes(status) ? 0 : status, reply: stdout});
    }
  }
}

module.exports = async function shows(program) {
  const {ask, stop} = workerOf();
  const tests = pagesOfTests(), shown = ["docs/show.md", "docs/errors.md"].flatMap(name => pagesOfCommands(read(name)));
  expect("the number of pages", [tests.length >= 50, shown.length >= 20], [true, true]);
  await tryPages(ask, [...tests, ...shown]);
  await tryLimits(ask);
  await tryRuns(ask);
  tryTrees();
  await tryDerivations(ask);
  await tryStatuses();
  await tryPageLinks();
  if (program) await compare(ask, program);
  stop();
};
