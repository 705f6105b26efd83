// The tokens of a source, by the grammar of highlighting that the editors use (editors/textmate/fing.tmLanguage.json).
// The page uses them for two things: to highlight, and to find the token that `refused Syntax N` counts to.

// The style of the editor for the scopes of the grammar, by the first prefix that fits.
const STYLES = [
  ["comment", "comment"], ["string", "string"], ["constant.numeric", "number"], ["constant.language", "atom"],
  ["support.type", "type"], ["invalid", "invalid"], ["keyword.operator", "operator"], ["keyword", "keyword"],
  ["punctuation", "bracket"],
];

// The rules of the grammar in the order in which they are tried, each with its regular expression and its scope.
function rulesOf(grammar, patterns = grammar.patterns, scope = "") {
  return patterns.flatMap(({include, match, name, patterns: inner}) => {
    if (match !== undefined) return [{match: new RegExp(match, "suy"), scope: name ?? scope}];
    const rule = include === undefined ? {patterns: inner, name} : grammar.repository[include.slice(1)];
    return rulesOf(grammar, rule.match === undefined ? rule.patterns : [rule], rule.name ?? scope);
  });
}

// Gives a function of a line and a place in it. Its answer is the end of the piece that begins there, and the scope of
// the piece, or null for blanks. No token and no comment goes on past the end of a line.
function piecesOf(grammar) {
  const rules = rulesOf(grammar);
  const blanks = /[ \t\r\n]+/y;
  return function pieceAt(line, from) {
    blanks.lastIndex = from;
    if (blanks.test(line)) return {end: blanks.lastIndex, scope: null};
    for (const {match, scope} of rules) {
      match.lastIndex = from;
      if (match.test(line)) return {end: match.lastIndex, scope};
    }
    return {end: from + 1, scope: "invalid"};
  };
}

function styleOf(scope) {
  const found = STYLES.find(([prefix]) => scope !== null && scope.startsWith(prefix));
  return found ? found[1] : null;
}

// The place of the token with a number, counted from 0: indexes of its first character and of the one behind its last.
// Where the source has no such token, the place is empty and at the end of the last token.
function tokenPlace(pieceAt, source, number) {
  let count = 0, start = 0, last = 0;
  for (const line of source.split("\n")) {
    for (let at = 0; at < line.length;) {
      const {end, scope} = pieceAt(line, at);
      if (scope !== null && !scope.startsWith("comment")) {
        if (count === number) return {from: start + at, to: start + end};
        count++;
        last = start + end;
      }
      at = end;
    }
    start += line.length + 1;
  }
  return {from: last, to: last};
}

if (typeof module === "object") module.exports = {piecesOf, styleOf, tokenPlace};
