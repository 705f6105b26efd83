// The worker of the page. Its first message is the compiled modules; each further one is a question, as `answererOf` has it.
let answer;
onmessage = async ({data}) => {
  if (data.modules) {
    answer = answererOf(data.modules);
    return;
  }
  const began = performance.now();
  const said = await answer(data);
  postMessage({...said, time: performance.now() - began});
};
