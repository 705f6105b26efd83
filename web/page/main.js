// The page: editor, tabs, verdict and explanation, over the calls of the files before this one.

const FIRST = "counter"; // the program that is shown where the link names none
const FIRST_TAB = "page";
const VIEWED = ["page", "paper", "term", "derivation", "steps"]; // the tabs that show a page for people
const WAIT = 200; // milliseconds from the last key to the question
const STEPS = "1000000"; // the budget of the run whose steps are shown
const LIMIT = 20000; // milliseconds that a question may take
const PATIENCE = 500; // milliseconds after which the page says that it works on one
const GRACE = 400; // milliseconds that it may go on while a newer one waits
const SHOWN = 200000; // characters of a reply that are shown

const $ = id => document.getElementById(id);
const pieceAt = piecesOf(GRAMMAR);
const tabs = [...document.querySelectorAll("[role=tab]")];
const names = PROGRAMS.flatMap(({programs}) => programs.map(it => it.name));
const draft = keptIn(() => localStorage, "fing.draft"), theme = keptIn(() => localStorage, "fing.theme");
const state = {command: FIRST_TAB, place: null, marks: [], answered: new Map()};

// The editor

CodeMirror.defineMode("fing", () => ({
  token(stream) {
    const {end, scope} = pieceAt(stream.string, stream.pos);
    stream.pos = end;
    return styleOf(scope);
  },
}));

const editor = CodeMirror.fromTextArea($("source"), {
  mode: "fing", lineNumbers: true, lineWrapping: true, matchBrackets: true, indentUnit: 2, tabSize: 2, smartIndent: false,
  screenReaderLabel: "Program",
  extraKeys: {
    Tab: false, "Shift-Tab": false, F6: () => selectedTab().focus(), F8: showPlace,
    "Ctrl-Enter": () => choose("run"), "Cmd-Enter": () => choose("run"),
    "Shift-Ctrl-Enter": () => choose("check"), "Shift-Cmd-Enter": () => choose("check"),
  },
});

function clearMarks() {
  for (const mark of state.marks) mark.clear();
  state.marks = [];
  state.place = null;
  $("go").hidden = true;
}

// Marks the place of a refusal, and writes a note below its line.
function markPlace({from, to}, text) {
  const start = editor.posFromIndex(from), end = editor.posFromIndex(to);
  const note = document.createElement("div");
  note.className = "refused-note";
  note.textContent = text;
  const line = editor.addLineClass(start.line, "gutter", "refused-line");
  const last = editor.addLineWidget(end.line, note);
  state.marks.push(last, {clear: () => editor.removeLineClass(line, "gutter", "refused-line")});
  if (from === to) {
    const sign = document.createElement("span");
    sign.className = "refused-end";
    sign.textContent = "▲";
    sign.setAttribute("aria-hidden", "true");
    state.marks.push(editor.setBookmark(start, {widget: sign}));
  } else {
    state.marks.push(editor.markText(start, end, {className: "refused"}));
  }
  state.place = {start, end};
  $("go").hidden = false;
}

function showPlace() {
  if (!state.place) return;
  editor.focus();
  editor.setSelection(state.place.start, state.place.end, {scroll: false});
  editor.scrollIntoView({from: state.place.start, to: state.place.end}, 60);
}

// Asking

const workerCode = URL.createObjectURL(new Blob([$("engine").textContent], {type: "text/javascript"}));
let compiled = null;

async function compiledModule(id) {
  const packed = fromBase64($(id).textContent.trim());
  return WebAssembly.compile(await through(packed, new DecompressionStream("gzip")));
}

async function compile() {
  const [fing, show] = await Promise.all(["module", "show-module"].map(compiledModule));
  compiled = {fing, show};
}

function start(onAnswer, onBreak) {
  const worker = new Worker(workerCode);
  worker.onmessage = ({data}) => onAnswer(data);
  worker.onerror = event => onBreak(event.message);
  worker.onmessageerror = () => onBreak("a message was lost");
  worker.postMessage({modules: compiled});
  return {post: question => worker.postMessage(question), stop: () => worker.terminate()};
}

let typing = null, patience = null;
const ask = askerOf({start, tell, limit: LIMIT, grace: GRACE});

// The words for `fing` that the tab asks for. A page for people comes with the reply of `check`, or of the run that it shows:
// this has the place of a refusal.
function wordsNow() {
  if (state.command === "steps") return ["run", "--budget", STEPS];
  if (VIEWED.includes(state.command)) return ["check"];
  if (state.command === "run") return ["run", "--budget", $("budget").value.trim()];
  return state.command === "emit" && $("simplify").checked ? ["emit", "--simplify"] : [state.command];
}

// The view of the tab, or none where it shows a reply.
function viewNow() {
  if (!VIEWED.includes(state.command)) return undefined;
  if (state.command === "derivation") return $("plain").checked ? "derivation" : "derivation-html";
  return ["paper", "term"].includes(state.command) && $("latex").checked ? `${state.command}-latex` : state.command;
}

// What is asked, without the source, as one text.
function keyOf({words, view = ""}) {
  return [view, ...words].join(" ");
}

// Asks about what is typed, unless the answer is known.
function question() {
  clearTimeout(typing);
  if (!compiled) return;
  const asked = {words: wordsNow(), view: viewNow(), source: editor.getValue()};
  const known = state.answered.get(keyOf(asked));
  if (known && known.source === asked.source) return show(asked, known.answer);
  setBusy(true);
  ask(asked);
}

// Marks what is shown as old, until there is an answer.
function setBusy(isBusy) {
  clearTimeout(patience);
  for (const id of ["reply", "tree"]) $(id).classList.toggle("old", isBusy);
  const text = `Working … The page stops after ${LIMIT / 1000} seconds, or when you type.`;
  if (isBusy) patience = setTimeout(() => setVerdict({mood: "none", text}), PATIENCE);
}

function tell(asked, answer) {
  state.answered.set(keyOf(asked), {source: asked.source, answer});
  const isNow = asked.source === editor.getValue() && keyOf(asked) === keyOf({words: wordsNow(), view: viewNow()});
  if (isNow) show(asked, answer);
}

// Showing

function show({words, view, source}, answer) {
  setBusy(false);
  clearMarks();
  const refusal = answer.status === 1 ? refusalOf(answer.reply) : null;
  const place = refusal && placeOf(refusal, source, pieceAt, tokenPlace);
  const shown = answer.page ?? answer;
  const where = place && lineAndColumn(source, place.from);
  const verdict = verdictOf({...isVerdict(shown) ? answer : shown, words}, where);
  if (place) markPlace(place, noteOf(refusal, source, place, words[0] === "link" ? "text of units" : "program"));
  setVerdict(verdict);
  showReply(shown.reply, view !== undefined);
  for (const line of document.querySelectorAll("[data-reading]")) {
    line.hidden = shown.status !== 0 || line.dataset.reading !== (view ?? words[0]).replace(/-\w+$/, "");
  }
  explain(topicOf(answer));
  document.body.dataset.time = answer.time ?? "";
}

// Whether an answer says that the program is accepted or refused.
function isVerdict({status}) {
  return [0, 1].includes(status);
}

function setVerdict({mood, text}) {
  $("verdict").dataset.mood = mood;
  if ($("verdict").textContent !== text) $("verdict").textContent = text;
}

function showReply(reply, isPage) {
  const text = reply.slice(0, SHOWN), parts = isPage ? partsOf(text) : null, tree = isPage ? treeOf(text) : null;
  $("tree").replaceChildren(...(tree ?? []).map(elementOf));
  $("tree").hidden = $("fold").hidden = $("unfold").hidden = !tree;
  $("reply").hidden = Boolean(tree);
  if (tree) $("reply").textContent = "";
  else if (parts) $("reply").replaceChildren(parts.title, excerptBlock(parts.excerpt), parts.rest);
  else $("reply").textContent = text;
  makeReachable($("reply").querySelector(".excerpt"));
  $("note").hidden = reply.length <= SHOWN;
  $("note").textContent = `The first ${SHOWN.toLocaleString("en")} of ${reply.length.toLocaleString("en")} characters.`;
}

// The excerpt of a page for people, in which a mark stands below its phrase, however narrow the window is.
function excerptBlock(text) {
  const block = document.createElement("span");
  block.className = "excerpt";
  block.textContent = text;
  return block;
}

// A part of the tree of a derivation: a text, or an element with its parts.
function elementOf(part) {
  if (typeof part === "string") return part;
  const element = document.createElement(part.name);
  if (part.name === "details") element.open = true;
  if (part.name === "div") element.className = "leaf";
  if (part.href) Object.assign(element, {href: targetFrom(part.href), target: "_blank", rel: "noopener"});
  element.append(...part.parts.map(elementOf));
  return element;
}

// Folds or unfolds all rules in the outermost one.
function setFolded(isFolded) {
  for (const rule of $("tree").querySelectorAll("details details")) rule.open = !isFolded;
}

// A block that is wider than its place can be scrolled by keys too.
function makeReachable(block) {
  if (block && block.scrollWidth > block.clientWidth) block.tabIndex = 0;
}

// The explanation out of the page of errors, whose links are read from its own folder.
function explain(topic) {
  const section = topic && sectionOf($("errors").textContent, topic);
  $("explanation").hidden = !section;
  if (!section || $("explanation").dataset.topic === topic) return;
  $("explanation").dataset.topic = topic;
  $("explanation").innerHTML = marked.parse(section, {headerIds: false, mangle: false});
  for (const link of $("explanation").querySelectorAll("a[href]")) {
    const target = link.getAttribute("href");
    if (!/^[a-z]+:/.test(target)) link.setAttribute("href", target.startsWith("#") ? `../errors.md${target}` : `../${target}`);
    link.target = "_blank";
    link.rel = "noopener";
  }
  for (const code of $("explanation").querySelectorAll("pre > code")) offerPrograms(code);
}

// Puts the programs of a block of code in its place, each with a button: of a program itself, or of commands.
function offerPrograms(code) {
  const block = code.textContent;
  if (code.className === "language-fing") code.parentElement.replaceWith(trial({source: block, word: "check"}, ""));
  const commands = commandsOf(block);
  if (!commands?.some(({program}) => program)) return;
  code.parentElement.replaceWith(...commands.map(({lines, reply, program}) => program ? trial(program, reply) : pre(lines)));
}

function pre(text) {
  const block = document.createElement("pre");
  block.textContent = text;
  return block;
}

// A program to try, and its reply where there is one to show.
function trial({source, word}, reply) {
  const block = document.createElement("div"), button = document.createElement("button");
  block.className = "trial";
  button.type = "button";
  button.textContent = "Try it";
  button.addEventListener("click", () => tryProgram(source, word));
  block.append(pre(source.trimEnd()), button, ...reply ? [pre(reply)] : []);
  return block;
}

async function tryProgram(source, word) {
  choose(word);
  load(source, OTHER);
  $("verdict").scrollIntoView({block: "nearest"});
  await setLink();
}

// The tabs

function selectedTab() {
  return tabs.find(it => it.dataset.command === state.command);
}

function choose(command) {
  state.command = command;
  for (const tab of tabs) {
    const isSelected = tab.dataset.command === command;
    tab.setAttribute("aria-selected", isSelected);
    tab.tabIndex = isSelected ? 0 : -1;
  }
  $("panel").setAttribute("aria-labelledby", selectedTab().id);
  $("steps").hidden = command !== "run";
  $("simpler").hidden = command !== "emit";
  $("in-latex").hidden = !["paper", "term"].includes(command);
  $("as-text").hidden = command !== "derivation";
  question();
}

function moveTab(event) {
  const at = tabs.indexOf(selectedTab()), last = tabs.length - 1;
  const to = {ArrowLeft: at === 0 ? last : at - 1, ArrowRight: at === last ? 0 : at + 1, Home: 0, End: last}[event.key];
  if (to === undefined) return;
  event.preventDefault();
  choose(tabs[to].dataset.command);
  tabs[to].focus();
}

// Programs and links

function listPrograms() {
  for (const {group, programs} of PROGRAMS) {
    const options = document.createElement("optgroup");
    options.label = group;
    for (const {name} of programs) options.append(new Option(name));
    $("programs").append(options);
  }
  const other = new Option("another program", OTHER);
  other.hidden = true;
  $("programs").prepend(new Option("your draft", DRAFT), other);
}

function programOf(name) {
  return PROGRAMS.flatMap(({programs}) => programs).find(it => it.name === name);
}

// Loads a program of the list. A text of units is shown in the tab of `link`, and another program in another tab.
function loadProgram({source, name, command}, notice) {
  if ((command === "link") !== (state.command === "link")) choose(command ?? FIRST_TAB);
  load(source, name, notice);
}

function load(source, name, notice = "") {
  editor.setValue(source);
  editor.clearHistory();
  $("programs").value = name;
  $("notice").textContent = notice;
  question();
}

// Loads what the link in the address says. A wrong link becomes that of the program that is loaded in its place.
async function loadLink() {
  const fields = await fieldsOf(location.hash).catch(() => null);
  if (fields?.budget) $("budget").value = fields.budget;
  if (fields?.simplify) $("simplify").checked = true;
  if (fields?.latex) $("latex").checked = true;
  if (fields?.plain) $("plain").checked = true;
  if (fields?.command) choose(fields.command);
  const {name, source, notice} = loadedBy(fields, {names, first: FIRST, draft: draft.read()});
  if (notice) history.replaceState(null, "", exampleFragment(name));
  if (source === undefined) loadProgram(programOf(name), notice);
  else load(source, name, notice);
}

// Puts the link of what is shown into the address.
async function setLink() {
  const {checked: simplify} = $("simplify"), {checked: latex} = $("latex"), {checked: plain} = $("plain");
  const shown = {command: state.command, budget: $("budget").value.trim(), simplify, latex, plain};
  const fragment = await fragmentOf({source: editor.getValue(), ...shown});
  history.replaceState(null, "", fragment);
}

async function copyLink() {
  await setLink();
  try {
    await navigator.clipboard.writeText(location.href);
    $("copy").textContent = "Copied";
  } catch {
    $("copy").textContent = "The link is in the address bar";
  }
  setTimeout(() => { $("copy").textContent = "Copy link"; }, 3000);
}

// The theme

function showTheme() {
  const chosen = theme.read() ?? "";
  document.documentElement.dataset.theme = chosen;
  $("theme").value = chosen;
}

// What the user does

function askSoon() {
  clearTimeout(typing);
  typing = setTimeout(question, WAIT);
}

// What is typed is the draft, and the link in the address is not its link.
function keepDraft() {
  draft.keep(editor.getValue());
  $("programs").value = DRAFT;
  $("notice").textContent = "";
  if (location.hash !== "") history.replaceState(null, "", "#");
}

// Opens the box that says what the page is, at the bottom of the page.
function showAbout() {
  $("about").open = true;
  $("about").scrollIntoView();
  $("about").querySelector("summary").focus();
}

editor.on("change", (_, {origin}) => {
  clearMarks();
  if (origin !== "setValue") keepDraft();
  askSoon();
});
$("budget").addEventListener("input", askSoon);
$("simplify").addEventListener("change", question);
$("latex").addEventListener("change", question);
$("plain").addEventListener("change", question);
$("fold").addEventListener("click", () => setFolded(true));
$("unfold").addEventListener("click", () => setFolded(false));
$("go").addEventListener("click", showPlace);
$("copy").addEventListener("click", copyLink);
$("what").addEventListener("click", showAbout);
$("theme").addEventListener("change", () => {
  theme.keep($("theme").value);
  showTheme();
});
$("programs").addEventListener("change", () => {
  const program = programOf($("programs").value);
  history.replaceState(null, "", program ? exampleFragment(program.name) : "#");
  if (program) loadProgram(program);
  else load(draft.read() ?? "", DRAFT);
});
for (const tab of tabs) {
  tab.addEventListener("click", () => choose(tab.dataset.command));
  tab.addEventListener("keydown", moveTab);
}
document.addEventListener("keydown", event => {
  if (event.key === "F8" && !event.defaultPrevented) showPlace();
  if (event.key === "F6" && !event.defaultPrevented) editor.focus();
  if (["F6", "F8"].includes(event.key)) event.preventDefault();
});
window.addEventListener("hashchange", loadLink);

async function begin() {
  showTheme();
  listPrograms();
  setVerdict({mood: "none", text: "Loading …"});
  await loadLink();
  try {
    await compile();
  } catch (error) {
    const text = `This browser cannot load the compiler (${error.message}). It needs WebAssembly and DecompressionStream.`;
    setVerdict({mood: "none", text});
    return;
  }
  question();
}

begin();
