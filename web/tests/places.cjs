// What the page makes of replies: tokens and places of refusals, explanations, verdicts, links; against `fing` itself.
const {read, workerOf, expect} = require("./fing.cjs");
const {piecesOf, styleOf, tokenPlace} = require("../page/tokens.js");
const {refusalOf, placeOf, lineAndColumn, noteOf, verdictOf, topicOf, sectionOf} = require("../page/replies.js");
const {fragmentOf, fieldsOf} = require("../page/link.js");

const EXAMPLES = ["sets", "core", "packages", "higher-order", "operators", "balanced", "evaluator"];
const pieceAt = piecesOf(JSON.parse(read("editors/textmate/fing.tmLanguage.json")));

// No program has the tokens `of of`, and only where `of` may stand could a program go on with the first. There `data` is
// in its place. So the first n tokens of a program, and then one of the two words, are refused with `Syntax n`, and the
// page must mark that word.
async function tryTokens(fing) {
  for (const name of EXAMPLES) {
    const source = read(`examples/${name}.fing`);
    for (let number = 0; ; number += 5) {
      const {from, to} = tokenPlace(pieceAt, source, number);
      if (from === to) break;
      const brokenBy = word => source.slice(0, from) + `\n--\u2028é\n${word} ` + source.slice(from);
      const afterOf = (await fing(["check"], brokenBy("of of"))).reply === `refused Syntax ${number + 1}\n`;
      const word = afterOf ? "data" : "of", broken = brokenBy(word);
      const {reply} = await fing(["check"], broken);
      expect(`${name}: token ${number}`, reply, `refused Syntax ${number}\n`);
      const place = placeOf(refusalOf(reply), broken, pieceAt, tokenPlace);
      expect(`${name}: place of token ${number}`, broken.slice(place.from, place.to), word);
    }
  }
}

// Each character of ASCII where a token is wanted: the page highlights it as wrong if and only if `fing` finds no token.
async function tryCharacters(fing) {
  for (let code = 0; code < 128; code++) {
    const source = "val x = " + String.fromCharCode(code) + " 1";
    const {reply} = await fing(["check"], source);
    const isToken = !/BadByte 8|BadText 8/.test(reply);
    const scope = code === 10 ? null : pieceAt(source, 8).scope;
    expect(`the character ${code}`, styleOf(scope) !== "invalid", isToken);
  }
}

// The phrase that is marked, and its line and column.
async function tryPlace(fing, source, marked, line, column) {
  const {reply} = await fing(["check"], source);
  const place = placeOf(refusalOf(reply), source, pieceAt, tokenPlace);
  const found = place && [source.slice(place.from, place.to), lineAndColumn(source, place.from)];
  expect(`the place in ${source.slice(0, 40)}`, found, [marked, {line, column}]);
}

async function tryPlaces(fing) {
  await tryPlace(fing, "val x = y", "y", 1, 9);
  await tryPlace(fing, "-- é ∀ 𝄞 \n  val x = y", "y", 2, 11);
  await tryPlace(fing, "val s = \"𝄞\"", "\"𝄞\"", 1, 9);
  await tryPlace(fing, "val x = 𝄞", "𝄞", 1, 9);
  await tryPlace(fing, "val x = 1 +\n  true val y = 2", "true", 2, 3);
  await tryPlace(fing, "val x = 9223372036854775808", "9223372036854775808", 1, 9);
  await tryPlace(fing, "val s = \"ab\nval y = 1", "\"ab", 1, 9);
  await tryPlace(fing, "(".repeat(1001) + "1", "(", 1, 1001);
  await tryPlace(fing, "val x = (1", "", 1, 11);
  await tryPlace(fing, " val", "", 1, 5);
  await tryPlace(fing, "val x = 1\nval of = 2", "of", 2, 5);
}

// The note below a refused place.
async function tryNote(fing, source, note) {
  const refusal = refusalOf((await fing(["check"], source)).reply);
  expect(`the note in ${source.slice(0, 40)}`, noteOf(refusal, source, placeOf(refusal, source, pieceAt, tokenPlace)), note);
}

async function tryNotes(fing) {
  await tryNote(fing, "val x = 1\nval of = 2", "Syntax 5: no program goes on with `of` here");
  await tryNote(fing, read("examples/end-refused.fing"), "Syntax 16: no program goes on with `=` here");
  await tryNote(fing, "type t", "Syntax 2: the program ends too soon");
  await tryNote(fing, "val x = (1 -- and\n\n", "Syntax 5: the program ends too soon");
  await tryNote(fing, `val "${"a".repeat(1000)}"`, `Syntax 1: no program goes on with \`"${"a".repeat(39)}…\` here`);
  await tryNote(fing, "val x = y", "Unbound y");
  await tryNote(fing, "val x = 1;", "BadByte 9");
  const units = noteOf(refusalOf("refused Syntax 0\n"), "val x = 1", {from: 0, to: 3}, "text of units");
  expect("a note on units", units, "Syntax 0: no text of units goes on with `val` here");
}

// The reasons of refusals: those of the definition of lines, and those of a source without tokens or without a tree.
function reasons() {
  const lines = read("crates/fing_refusals/specs/Line.antt").matchAll(/^reason_text .*?ElabWhy\.(\w+)/gm);
  return [...[...lines].map(it => it[1]), "BadText", "BadByte", "Wide", "TooDeep", "Syntax"];
}

function tryExplanations() {
  const page = read("docs/errors.md");
  const known = reasons();
  expect("the number of reasons", known.length >= 20, true);
  for (const reason of known) {
    const section = sectionOf(page, reason);
    const isIts = section !== null && section.split("\n")[0].includes("`" + reason) && page.includes(section);
    expect(`the section of ${reason}`, isIts, true);
  }
  expect("the section of faults", /Overflow/.test(sectionOf(page, "Overflow")), true);
  expect("the section of spent budgets", /spent/.test(sectionOf(page, "spent")), true);
  expect("the section of words", /budget/.test(sectionOf(page, "words")), true);
  expect("the section of memory", /memory/.test(sectionOf(page, "memory")), true);
  expect("no section", sectionOf(page, "Nothing"), null);
}

// Each status has a sentence of its own, and none is empty.
function tryVerdicts() {
  const answers = [
    {status: 0, reply: "x = 1\n"}, {status: 1, reply: "refused 8-9 Unbound y\n"}, {status: 2, reply: ""},
    {status: 3, reply: "fault Overflow\n"}, {status: 4, reply: "spent 500\n"}, {status: 6, reply: ""},
    {status: 7, reply: ""}, {status: 8, reply: ""},
    ...["stack", "memory", "time", "engine"].map(broken => ({status: -1, reply: "", broken})),
  ];
  const texts = answers.map(answer => verdictOf({...answer, words: ["run"]}, {line: 1, column: 9}).text);
  expect("the sentences", new Set(texts).size, answers.length);
  expect("no sentence is empty", texts.every(text => text && !text.includes("undefined")), true);
  expect("a refusal's sentence", texts[1], "Refused at line 1, column 9: Unbound y");
  const topics = [null, "Unbound", "words", "Overflow", "spent", null, "memory", "memory", null, null, null, null];
  expect("the topics", answers.map(topicOf), topics);
}

async function tryLinks() {
  for (const source of ["", "val x = \"é\" -- 𝄞\n", read("examples/sets.fing")]) {
    const fragment = await fragmentOf({source, command: "run", budget: "77"});
    expect("a link", await fieldsOf(fragment), {command: "run", budget: "77", source});
  }
  const simpler = await fragmentOf({source: "val x = 1", command: "emit", simplify: true});
  expect("a link to a simplified term", await fieldsOf(simpler), {command: "emit", simplify: true, source: "val x = 1"});
  const broken = await fieldsOf("#show=run&program=abc").catch(() => "refused");
  expect("a link that is cut off", broken, "refused");
}

module.exports = async function places() {
  const {fing, stop} = workerOf();
  await tryTokens(fing);
  await tryCharacters(fing);
  await tryPlaces(fing);
  await tryNotes(fing);
  tryExplanations();
  tryVerdicts();
  await tryLinks();
  stop();
};
