#!/usr/bin/env -S node --experimental-websocket
// Opens the page in a headless Chromium and uses it: node --experimental-websocket browser.mjs URL STEPS.json FOLDER
//
// STEPS is a list of steps, as in steps.json. Each has a `name` and any of these: `size` [width, height], `dark` true or
// false, `url`, which is put behind URL and opened, `keys` to press one after the other, and `script` to run in the page,
// the body of an async function. After each step it waits for an answer, prints the verdict and what the script gave, and
// writes FOLDER/NAME.png. Exit status 0 only where every step was taken without an error of the page.
import {spawn} from "node:child_process";
import fs from "node:fs";
import os from "node:os";
import path from "node:path";

const [url, stepsFile, folder] = process.argv.slice(2);
const profile = fs.mkdtempSync(path.join(os.tmpdir(), "fing-chromium-"));
const flags = ["--headless", "--no-sandbox", "--disable-gpu", "--remote-debugging-port=0", `--user-data-dir=${profile}`];
const browser = spawn("chromium", [...flags, "about:blank"], {stdio: ["ignore", "ignore", "pipe"]});
const port = await new Promise((resolve, reject) => {
  let said = "";
  browser.stderr.on("data", data => {
    said += data;
    const found = /ws:\/\/127\.0\.0\.1:(\d+)\//.exec(said);
    if (found) resolve(found[1]);
  });
  browser.on("exit", () => reject(new Error(said)));
});
const target = (await (await fetch(`http://127.0.0.1:${port}/json`)).json()).find(it => it.type === "page");
const socket = new WebSocket(target.webSocketDebuggerUrl);
await new Promise(resolve => { socket.onopen = resolve; });

let last = 0, faults = 0;
const waiting = new Map();
const requests = [];
socket.onmessage = ({data}) => {
  const message = JSON.parse(data);
  if (["Runtime.exceptionThrown", "Log.entryAdded"].includes(message.method)) {
    faults++;
    console.log("page:", JSON.stringify(message.params).slice(0, 500));
  }
  if (message.method === "Network.requestWillBeSent") requests.push(message.params.request.url.slice(0, 60));
  waiting.get(message.id)?.(message.result ?? message);
};
const call = (method, params = {}) => new Promise(resolve => {
  waiting.set(++last, resolve);
  socket.send(JSON.stringify({id: last, method, params}));
});
const sleep = time => new Promise(resolve => setTimeout(resolve, time));

async function value(expression) {
  const told = await call("Runtime.evaluate", {expression, awaitPromise: true, returnByValue: true});
  if (told.exceptionDetails) {
    faults++;
    return String(told.exceptionDetails.exception?.description);
  }
  return told.result?.value;
}

const KEYS = {Tab: 9, Enter: 13, F6: 117, F8: 119, ArrowRight: 39, ArrowLeft: 37, ArrowDown: 40, Home: 36, End: 35};
async function press(key) {
  const parts = key.split("+"), name = parts.pop();
  const modifiers = (parts.includes("Ctrl") ? 2 : 0) + (parts.includes("Shift") ? 8 : 0);
  const text = name.length === 1 ? name : name === "Enter" && modifiers === 0 ? "\r" : undefined;
  const event = {key: name, code: name, windowsVirtualKeyCode: KEYS[name] ?? 0, modifiers, text};
  await call("Input.dispatchKeyEvent", {type: text ? "keyDown" : "rawKeyDown", ...event});
  await call("Input.dispatchKeyEvent", {type: "keyUp", ...event, text: undefined});
}

const settled = `!document.getElementById("reply").classList.contains("old")
  && !["", "Loading …"].includes(document.getElementById("verdict").textContent)`;
async function answered() {
  await sleep(350);
  for (let turn = 0; turn < 600 && (await value(settled)) !== true; turn++) await sleep(50);
  return value(`document.getElementById("verdict").textContent`);
}

async function setSize(width, height) {
  await call("Emulation.setDeviceMetricsOverride", {width, height, deviceScaleFactor: 1, mobile: width < 500});
}

async function setDark(isDark) {
  const value = isDark ? "dark" : "light";
  await call("Emulation.setEmulatedMedia", {features: [{name: "prefers-color-scheme", value}]});
}

for (const domain of ["Page", "Runtime", "Log", "Network"]) await call(domain + ".enable");
for (const step of JSON.parse(fs.readFileSync(stepsFile, "utf8"))) {
  if (step.size) await setSize(...step.size);
  if ("dark" in step) await setDark(step.dark);
  if ("url" in step) {
    await call("Page.navigate", {url: "about:blank"});
    await call("Page.navigate", {url: url + step.url});
    await sleep(300);
    await answered();
  }
  for (const key of step.keys ?? []) await press(key);
  const given = step.script && await value(`(async () => { ${step.script} })()`);
  console.log(`${step.name}: ${await answered()}`, given === undefined ? "" : given);
  const picture = await call("Page.captureScreenshot", {format: "png"});
  if (folder) fs.writeFileSync(path.join(folder, `${step.name}.png`), Buffer.from(picture.data, "base64"));
}
console.log("requests:", JSON.stringify([...new Set(requests)]));
// It may end before it answers.
const ended = new Promise(resolve => browser.on("exit", resolve));
call("Browser.close");
await ended;
socket.close();
fs.rmSync(profile, {recursive: true, force: true, maxRetries: 10});
process.exitCode = faults > 0 ? 1 : 0;
