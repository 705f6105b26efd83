// Asks a worker, one question at a time, and never waits for ever: a worker that takes too long is ended, and the next
// question gets a new one.

// `start(onAnswer, onBreak)` starts a worker and gives {post, stop}. `tell(question, answer)` is called once for each
// question but those that a newer one replaced. `limit` is the time that one question may take, `grace` the time that it
// may go on once a newer question waits; both in milliseconds.
function askerOf({start, tell, limit, grace}) {
  let worker = null, asked = null, waiting = null, timer = null;

  // Starts a worker. What it still says after it was discarded is no answer.
  function fresh() {
    const calls = {isOn: true};
    const hear = (said, isLost) => { if (calls.isOn) answer(said, isLost); };
    const broken = {status: -1, broken: "engine", reply: ""};
    const {post, stop} = start(said => hear(said, false), detail => hear({...broken, detail}, true));
    return {post, stop: () => { calls.isOn = false; stop(); }};
  }

  function begin(question) {
    asked = question;
    worker ??= fresh();
    timer = setTimeout(() => answer({status: -1, broken: "time", reply: ""}, true), limit);
    worker.post(question);
  }

  function end() {
    clearTimeout(timer);
    asked = null;
  }

  function discard() {
    worker?.stop();
    worker = null;
  }

  function next() {
    const question = waiting;
    waiting = null;
    if (question) begin(question);
  }

  function answer(said, isLost) {
    const question = asked;
    if (!question) return;
    end();
    if (isLost) discard();
    if (!waiting) tell(question, said);
    next();
  }

  return function ask(question) {
    if (!asked) return begin(question);
    const isFirst = !waiting;
    waiting = question;
    if (!isFirst) return;
    clearTimeout(timer);
    timer = setTimeout(() => {
      end();
      discard();
      next();
    }, grace);
  };
}

if (typeof module === "object") module.exports = {askerOf};
