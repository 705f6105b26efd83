// A link that holds a program: its fragment has the program, compressed, and what is shown of it.

async function through(bytes, transform) {
  const stream = new Blob([bytes]).stream().pipeThrough(transform);
  return new Uint8Array(await new Response(stream).arrayBuffer());
}

function toBase64(bytes) {
  let text = "";
  for (let at = 0; at < bytes.length; at += 32768) text += String.fromCharCode(...bytes.subarray(at, at + 32768));
  return btoa(text).replaceAll("+", "-").replaceAll("/", "_").replaceAll("=", "");
}

function fromBase64(text) {
  return Uint8Array.from(atob(text.replaceAll("-", "+").replaceAll("_", "/")), it => it.charCodeAt(0));
}

// What a link can show, the tabs of the page.
const SHOWN_BY_LINKS = ["page", "paper", "term", "derivation", "steps", "check", "emit", "run", "link"];

async function fragmentOf({source, command, budget, simplify, latex, plain}) {
  const packed = await through(new TextEncoder().encode(source), new CompressionStream("deflate-raw"));
  const fields = new URLSearchParams({show: command});
  if (command === "run" && budget !== "1000000") fields.set("budget", budget);
  if (command === "emit" && simplify) fields.set("simplify", "");
  if (["paper", "term"].includes(command) && latex) fields.set("latex", "");
  if (command === "derivation" && plain) fields.set("plain", "");
  fields.set("program", toBase64(packed));
  return "#" + fields;
}

// What a fragment says: `source` or the name of an `example`, and `command`, `budget`, `simplify`, `latex` and `plain` where
// they are given. It throws where the program cannot be read.
async function fieldsOf(fragment) {
  const fields = new URLSearchParams(fragment.replace(/^#/, ""));
  const textOf = name => fields.get(name) ?? undefined, isSet = name => fields.has(name) || undefined;
  const command = SHOWN_BY_LINKS.find(it => it === fields.get("show"));
  const flags = {simplify: isSet("simplify"), latex: isSet("latex"), plain: isSet("plain")};
  const shown = {command, budget: textOf("budget"), ...flags, example: textOf("example")};
  if (!fields.has("program")) return shown;
  const bytes = await through(fromBase64(fields.get("program")), new DecompressionStream("deflate-raw"));
  return {...shown, source: new TextDecoder("utf-8", {fatal: true}).decode(bytes)};
}

// The fragment of a program in the list.
function exampleFragment(name) {
  return "#" + new URLSearchParams({example: name});
}

// How the list names the draft, and a program that is not in the list.
const DRAFT = "(draft)", OTHER = "(other)";

// What a fragment with these fields loads, or one that cannot be read, whose fields are null: the `name` in the list, and
// the `source` where that is not a name of `names`. A wrong fragment loads the program `first`, with a `notice`. The draft
// is loaded only where the fragment names no program.
function loadedBy(fields, {names, first, draft}) {
  if (fields === null) return {name: first, notice: `The link holds no program that can be read. This is the example “${first}”.`};
  const {source, example} = fields;
  if (source !== undefined) return {name: OTHER, source};
  if (names.includes(example)) return {name: example};
  if (example !== undefined) return {name: first, notice: `There is no example “${example}”. This is the example “${first}”.`};
  return draft === null ? {name: first} : {name: DRAFT, source: draft};
}

if (typeof module === "object") module.exports = {through, fragmentOf, fieldsOf, exampleFragment, loadedBy, DRAFT, OTHER};
