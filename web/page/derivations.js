// A derivation by `fing-show --derivation --html` as a tree, out of which the page builds elements of its own. So nothing of
// a reply is ever taken as HTML: a page in which anything else stands is no tree.

// What stands in the body of such a page: a tag, which has the name of its element, or a text.
const PIECE = /<(details) open>|<(div) class="leaf">|<(a) href="((?:docs|crates)\/[\w/.#-]+)">|<(code|p|span|summary)>|<\/(\w+)>|([^<>]+)/gy;

const SIGNS = {lt: "<", gt: ">", quot: "\"", amp: "&"};

// The text that HTML without tags shows.
function textOf(html) {
  return html.replaceAll(/&(lt|gt|quot|amp);/g, (_, name) => SIGNS[name]);
}

// The body of a page of HTML, or nothing. One that is cut off goes to the end of a line behind which an element begins or ends.
function bodyOf(page) {
  if (!page.startsWith("<!DOCTYPE html>\n")) return "";
  const begin = page.indexOf("<body>\n"), end = page.lastIndexOf("\n<");
  return begin < 0 ? "" : page.slice(begin + 7, end + 1).replace(/<\/body>\n$/, "");
}

// The parts of the body: texts, and elements {name, href, parts}. Null where the page is none of these derivations. The
// elements that are open at the end of a page that is cut off end there.
function treeOf(page) {
  const body = bodyOf(page), open = [{parts: []}];
  let length = 0;
  for (const [piece, details, div, link, href, plain, closed, text] of body.matchAll(PIECE)) {
    length += piece.length;
    if (closed) {
      if (open.pop().name !== closed) return null;
    } else if (text) {
      open.at(-1).parts.push(textOf(text));
    } else {
      const element = {name: details ?? div ?? link ?? plain, href, parts: []};
      open.at(-1).parts.push(element);
      open.push(element);
    }
  }
  return length > 0 && length === body.length ? open[0].parts : null;
}

// Where a link leads whose target is given from the top of the repository, from the folder of the page.
function targetFrom(href) {
  return href.startsWith("docs/") ? `../${href.slice(5)}` : `../../${href}`;
}

if (typeof module === "object") module.exports = {treeOf, targetFrom};
