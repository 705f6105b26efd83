// Calls the WebAssembly modules. `fingOf(module)` gives a function of words and source that answers {status, reply}, and
// `showOf(module)` one of a view, a name and a source; or status -1 with the word `broken` where the engine broke the call
// off. A worker of the page and Node share this file. Each call has an instance of its own, so memory starts anew and nothing
// is left of a call that was broken off.

const MOST_MEMORY = 1073741824n; // bytes that a call may have, its stack and the reply among them
const MOST_REPLY = 1 << 29; // bytes of the longest reply
const NAME = "program"; // by which a page for people calls the source

// What `fing_show_page` calls the views.
const VIEWS = {
  page: 0, paper: 1, "paper-latex": 2, term: 3, "term-latex": 4, steps: 5, derivation: 6, "derivation-html": 7,
};

// Why the engine threw: its stack was too small, it had no memory, or something else.
function breakOf(error) {
  const text = String(error?.message ?? error);
  if (/call stack|recursion|stack (size )?(exceeded|overflow)/i.test(text)) return "stack";
  if (/memory|allocat/i.test(text) && !/out of bounds/i.test(text)) return "memory";
  return "engine";
}

// A function that calls what a module exports, with numbers and bytes, and answers with the status and the text. Where the
// room was too small for the text, it tries a larger one.
function callerOf(module, name, mostMemory) {
  const decoder = new TextDecoder();

  // Answers with so many bytes of room.
  async function once(given, room) {
    const {exports} = await WebAssembly.instantiate(module, {});
    exports.allow(mostMemory);
    const blocks = [];
    const take = length => {
      blocks.push(exports.take(BigInt(length)));
      return blocks.at(-1);
    };
    const put = bytes => {
      const at = take(bytes.length);
      if (at !== 0n) new Uint8Array(exports.memory.buffer, Number(at), bytes.length).set(bytes);
      return [at, BigInt(bytes.length)];
    };
    const words = given.flatMap(it => typeof it === "number" ? [it] : put(it));
    const page = take(room), written = take(8);
    if (blocks.includes(0n)) return {status: 7, reply: new Uint8Array()};
    // A stack of its own that grows, where the engine has that; else the worker's stack.
    const call = WebAssembly.promising ? WebAssembly.promising(exports[name]) : exports[name];
    // The status is a byte, and what stands above it in the result is not told.
    const status = 255 & await call(...words, page, BigInt(room), written);
    const length = new DataView(exports.memory.buffer).getBigUint64(Number(written), true);
    return {status, reply: new Uint8Array(exports.memory.buffer, Number(page), Number(length)).slice()};
  }

  return async function call(...given) {
    for (let room = 1 << 20; ; room *= 8) {
      try {
        const {status, reply} = await once(given, room);
        if (status !== 6 || room >= MOST_REPLY) return {status, reply: decoder.decode(reply)};
      } catch (error) {
        return {status: -1, broken: breakOf(error), detail: String(error?.message ?? error), reply: ""};
      }
    }
  };
}

function encoded(text) {
  return typeof text === "string" ? new TextEncoder().encode(text) : text;
}

// The words are those after the program's name; the source is a string or bytes.
function fingOf(module, mostMemory = MOST_MEMORY) {
  const call = callerOf(module, "fing_reply", mostMemory);
  return async function fing(words, source) {
    if (words.some(word => word.includes("\n"))) return {status: 2, reply: ""};
    return call(encoded(words.join("\n")), encoded(source));
  };
}

// The view is a number of VIEWS; the name and the source are strings or bytes.
function showOf(module, mostMemory = MOST_MEMORY) {
  const call = callerOf(module, "fing_show_page", mostMemory);
  return async function show(view, name, source) {
    return call(view, encoded(name), encoded(source));
  };
}

// Answers questions by the two modules. A question has words, a source, and perhaps a view of VIEWS, with the name of the
// source where that is not NAME. With a view the answer also has the `page` for people, if `fing` accepts or refuses; a
// program is accepted also where its run meets a fault or spends its budget.
function answererOf({fing, show}, mostMemory) {
  const reply = fingOf(fing, mostMemory), page = showOf(show, mostMemory);
  return async function answer({words, source, view, name = NAME}) {
    const said = await reply(words, source);
    if (view === undefined || ![0, 1, 3, 4].includes(said.status)) return said;
    return {...said, page: await page(VIEWS[view], name, source)};
  };
}

if (typeof exports === "object") Object.assign(exports, {fingOf, showOf, answererOf, VIEWS});
