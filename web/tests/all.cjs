// node web/tests/all.cjs [PROGRAM [SHOW]]: tries the modules in the page, and what the page makes of their replies; with
// PROGRAM and SHOW, compares them with those of the native programs. Exit status 0 only where all is as it should be.
const {count} = require("./fing.cjs");

async function all(program, show) {
  await require("./replies.cjs")(program);
  await require("./shows.cjs")(show);
  await require("./places.cjs")();
  await require("./programs.cjs")();
  await require("./asking.cjs")();
  console.log(`page: ${count.tried} trials, ${count.wrong} wrong`);
  return count.wrong > 0 || count.tried < 500 ? 1 : 0;
}

// A worker may still run, so this process has to be ended.
all(...process.argv.slice(2)).then(process.exit, error => {
  console.log(error);
  process.exit(1);
});
