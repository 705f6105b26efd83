// The asker of the page, over workers of Node: an answer that takes too long ends its worker, never the page.
const {starter, expect} = require("./fing.cjs");
const {askerOf} = require("../page/asking.js");

const LOOP = {words: ["run", "--budget", "10000000"], source: "val f = fix g (x : Int) : Int => g x val y = f 1"};
const QUICK = {words: ["run"], source: "val x = 1"};

// An asker whose workers are counted, and a function that waits for what it tells next.
function watched(limits, start = starter()) {
  const told = [], running = new Set();
  let started = 0, wake = () => {};
  const counted = (...calls) => {
    const worker = start(...calls);
    started++;
    running.add(worker);
    return {post: worker.post, stop: () => { running.delete(worker); worker.stop(); }};
  };
  const tell = (question, {status, broken, reply}) => { told.push({status, broken, reply}); wake(); };
  const ask = askerOf({start: counted, tell, ...limits});
  const next = async () => {
    while (told.length === 0) await new Promise(resolve => { wake = resolve; });
    return told.shift();
  };
  return {ask, next, started: () => started, end: () => running.forEach(worker => worker.stop())};
}

const ONE = {status: 0, reply: "x = 1\n"};

async function tryTime() {
  const page = watched({limit: 400, grace: 100});
  page.ask(LOOP);
  expect("an answer that takes too long", await page.next(), {status: -1, broken: "time", reply: ""});
  page.end();
  const again = watched({limit: 20000, grace: 100});
  again.ask(QUICK);
  expect("a worker that is reused", [await again.next(), (again.ask(QUICK), await again.next()), again.started()], [ONE, ONE, 1]);
  again.ask(LOOP);
  again.ask({words: ["check"], source: "val"});
  again.ask(QUICK);
  expect("a newer question ends an older one", [await again.next(), again.started()], [ONE, 2]);
  again.end();
}

async function tryBreak() {
  const dies = (onAnswer, onBreak) => ({post: () => setTimeout(() => onBreak("gone"), 1), stop: () => {}});
  const page = watched({limit: 1000, grace: 100}, dies);
  page.ask(QUICK);
  expect("a worker that dies", await page.next(), {status: -1, broken: "engine", reply: ""});
  page.ask(QUICK);
  expect("the one after it", [await page.next(), page.started()], [{status: -1, broken: "engine", reply: ""}, 2]);
}

// A worker that answers late, after it was ended: its answer is not that of the next question.
async function tryLate() {
  const late = onAnswer => ({
    post: ({words}) => setTimeout(() => onAnswer({status: 0, reply: words[0]}), words[0] === "slow" ? 300 : 350),
    stop: () => {},
  });
  const page = watched({limit: 1000, grace: 50}, late);
  page.ask({words: ["slow"]});
  page.ask({words: ["next"]});
  expect("the answer after a late one", [await page.next(), page.started()], [{status: 0, reply: "next"}, 2]);
}

module.exports = async function asking() {
  await tryTime();
  await tryLate();
  await tryBreak();
};
