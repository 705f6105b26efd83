// What a reply says: its refusal, the place of it in the source, the sentence for its status, and its explanation.

// The parts of a line `refused ..`: the reason and what it names, and its place as the line gives it. `bytes` are the
// offsets of a phrase, `byte` that of a token or a character, `token` a number of tokens. Null for other replies.
function refusalOf(reply) {
  const line = reply.split("\n", 1)[0];
  const phrase = /^refused (\d+)-(\d+) ((\w+).*)$/s.exec(line);
  if (phrase) return {words: phrase[3], reason: phrase[4], bytes: [Number(phrase[1]), Number(phrase[2])]};
  const lexical = /^refused ((BadByte|BadText|Wide|TooDeep) (\d+))$/.exec(line);
  if (lexical) return {words: lexical[1], reason: lexical[2], byte: Number(lexical[3])};
  const syntax = /^refused (Syntax (\d+))$/.exec(line);
  if (syntax) return {words: syntax[1], reason: "Syntax", token: Number(syntax[2])};
  const other = /^refused ((\w+).*)$/s.exec(line);
  return other && {words: other[1], reason: other[2]};
}

function bytesOf(codePoint) {
  return codePoint < 0x80 ? 1 : codePoint < 0x800 ? 2 : codePoint < 0x10000 ? 3 : 4;
}

// The index in a string of the character that holds the byte at an offset of its UTF-8 form.
function indexOfByte(source, offset) {
  let byte = 0, index = 0;
  while (index < source.length) {
    const codePoint = source.codePointAt(index);
    byte += bytesOf(codePoint);
    if (byte > offset) return index;
    index += codePoint > 0xffff ? 2 : 1;
  }
  return index;
}

// The end of the piece that begins at an index: of a token, or of the rest of its line where a string is not closed.
function pieceEnd(pieceAt, source, index, reason) {
  const end = source.indexOf("\n", index);
  const rest = source.slice(index, end < 0 ? source.length : end);
  if (reason === "BadText") return index + rest.length;
  return index + (rest === "" ? 0 : pieceAt(rest, 0).end);
}

// The place of a refusal as indexes of a string, or null where it has none.
function placeOf(refusal, source, pieceAt, tokenPlace) {
  if (refusal.bytes) return {from: indexOfByte(source, refusal.bytes[0]), to: indexOfByte(source, refusal.bytes[1])};
  if (refusal.token !== undefined) return tokenPlace(pieceAt, source, refusal.token);
  if (refusal.byte === undefined) return null;
  const from = indexOfByte(source, refusal.byte);
  return {from, to: pieceEnd(pieceAt, source, from, refusal.reason)};
}

// Line and column of an index, both counted from 1, the column in characters.
function lineAndColumn(source, index) {
  const before = source.slice(0, index).split("\n");
  return {line: before.length, column: [...before[before.length - 1]].length + 1};
}

const LONGEST = 40; // characters of a token that a note shows

// What the note below a refused place says; `what` the source should be.
function noteOf({words, token}, source, {from, to}, what = "program") {
  if (token === undefined) return words;
  if (from === to) return `${words}: the ${what} ends too soon`;
  const text = source.slice(from, to);
  return `${words}: no ${what} goes on with \`${text.length > LONGEST ? text.slice(0, LONGEST) + "…" : text}\` here`;
}

const UNDECIDED = "The program is neither accepted nor refused.";

// What stops an answer that no status of the program stands for.
const BROKEN = {
  stack: () => `Your browser's stack is too small for this program. ${UNDECIDED} The native program has a larger stack.`,
  memory: () => `Your browser gave the page no memory. ${UNDECIDED}`,
  time: () => `There was no answer within the time limit, so the page stopped. ${UNDECIDED}`,
  engine: detail => `Your browser broke the answer off (${detail ?? "no reason is known"}). ${UNDECIDED}`,
};

const MEMORY = "A type that is too high leads to this too, and so does the page's limit of 1 GiB.";

// The sentence for an answer, and whether it is good, bad or none of the two.
function verdictOf({status, reply, broken, words, detail}, place) {
  const where = place ? ` at line ${place.line}, column ${place.column}` : "";
  const last = reply.trim().split(" ")[1];
  switch (status) {
    case 0: return {mood: "good", text: "Accepted."};
    case 1: return {mood: "bad", text: `Refused${where}: ${refusalOf(reply)?.words ?? ""}`};
    case 2: return {mood: "bad", text: wordsText(words)};
    case 3: return {mood: "bad", text: `Accepted, but the run met a fault: ${last}`};
    case 4: return {mood: "bad", text: `Accepted, but the run did not end within its budget of ${inThousands(last)} steps.`};
    case 6: return {mood: "none", text: "The reply is too long for this page."};
    case 7: return {mood: "none", text: `Out of memory. ${UNDECIDED} ${MEMORY}`};
    case 8: return {mood: "none", text: "The source has more than 1,048,576 bytes, which is the limit."};
    default: return {mood: "none", text: BROKEN[broken](detail)};
  }
}

function wordsText(words) {
  return words[0] === "run" ? "The budget is a whole number from 0 to 10,000,000." : "These words are no command line.";
}

function inThousands(number) {
  return Number(number).toLocaleString("en");
}

// The word by which the page of errors has the explanation of an answer, or null.
function topicOf({status, reply}) {
  if (status === 1) return refusalOf(reply)?.reason ?? null;
  if (status === 3) return reply.trim().split(" ")[1];
  return {2: "words", 4: "spent", 7: "memory", 8: "memory"}[status] ?? null;
}

// The sections of a page in Markdown: level and title of the heading, and the lines to the next heading.
function sectionsOf(page) {
  const sections = [];
  let isCode = false;
  for (const line of page.split("\n")) {
    if (line.startsWith("```")) isCode = !isCode;
    const heading = isCode ? null : /^(#+) (.*)$/.exec(line);
    if (heading) sections.push({level: heading[1].length, title: heading[2], lines: [line]});
    else if (sections.length > 0) sections[sections.length - 1].lines.push(line);
  }
  return sections;
}

// The headings under which topics stand that are no reasons of refusals.
const HEADINGS = {
  Overflow: /fault/i, DivideByZero: /fault/i, spent: /budget/i, words: /\bwords\b|command line/i, memory: /outside|memory/i,
};

// The section of the page of errors about a topic, as Markdown, or null. The heading of a reason names it in backticks.
function sectionOf(page, topic) {
  const sections = sectionsOf(page);
  const named = new RegExp("`" + topic + "[ `]");
  const isTitle = title => (HEADINGS[topic] ?? named).test(title);
  const first = sections.findIndex(({level, title}) => level > 1 && isTitle(title));
  if (first < 0) return null;
  let last = first + 1;
  while (last < sections.length && sections[last].level > sections[first].level) last++;
  return sections.slice(first, last).flatMap(({lines}) => lines).join("\n").trim();
}

// The parts of a page for people about a refusal: its title, the lines of the excerpt, and the rest; null for other pages.
function partsOf(page) {
  const found = /^(error: [^\n]*\n)( +--> [^\n]*\n(?:[^\n]*\n){3})(.*)$/s.exec(page);
  return found && {title: found[1], excerpt: found[2], rest: found[3]};
}

if (typeof module === "object") module.exports = {partsOf, refusalOf, indexOfByte, placeOf, lineAndColumn, noteOf, verdictOf, topicOf, sectionOf};
