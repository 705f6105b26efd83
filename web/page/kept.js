// A text that outlives a reload, such as the draft of a program: it is kept in the browser's storage. A browser may refuse
// its storage, for example to a page from a file. Then the text is kept until the page is left.

// `storageOf()` gives the storage, or throws. `read` gives the text, or null if there is none.
function keptIn(storageOf, key) {
  let text = null;
  return {
    keep(changed) {
      text = changed;
      try {
        storageOf().setItem(key, changed);
      } catch { /* refused, or full */ }
    },
    read() {
      if (text !== null) return text;
      try {
        return storageOf().getItem(key) ?? null;
      } catch {
        return null;
      }
    },
  };
}

if (typeof module === "object") module.exports = {keptIn};
