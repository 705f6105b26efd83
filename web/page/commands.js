// The commands that a page of the documentation shows, each with its reply. The playground has no shell, so it shows the
// program of a command instead, if the command does nothing but give a program to `fing`.

// What `echo '..'` or `printf '..'` writes, or null where its quoted string has more than letters that stand for themselves
// and, for `printf`, line feeds.
function writtenBy(writer, quoted) {
  if (writer === "echo") return quoted.includes("\\") ? null : quoted + "\n";
  const text = quoted.replaceAll("\\n", "\n");
  return /[\\%]/.test(text) ? null : text;
}

// The program that a command gives to `fing`, and the word for what it asks; or null for any other command.
function programIn(command) {
  const plain = /^(echo|printf) '([^']*)' \| \.\/fing (check|emit|link|run)$/.exec(command);
  const source = plain && writtenBy(plain[1], plain[2]);
  return source === null ? null : {source, word: plain[3]};
}

// The commands of a block of code, each {lines, reply, program}: its lines as they are, its reply alone, and its program or
// null. Null for a block that does not begin with a command.
function commandsOf(block) {
  if (!block.startsWith("$ ")) return null;
  return block.trimEnd().split(/\n(?=\$ )/).map(lines => {
    const [command, ...reply] = lines.slice(2).split("\n");
    return {lines, reply: reply.join("\n"), program: programIn(command)};
  });
}

if (typeof module === "object") module.exports = {commandsOf};
