// ---- how long the page takes for a step among told acts, and for a new one: node measure.mjs PAGE IMAGE

import {readFileSync} from "node:fs";
import {pathToFileURL} from "node:url";

const {Page} = await import(`./${process.env.BROWSER ?? "chromium"}.mjs`);
const [, , file, image] = process.argv;
const SIZES = [200, 5000, 20000], STEPS = 40, NEW_ACTS = 10;

// A step, up to the frame in which it is drawn.
const STEP = `(async (place) => {
  const begin = performance.now();
  go(place);
  document.body.getBoundingClientRect();
  const worked = performance.now() - begin;
  const frame = await new Promise((resolve) => requestAnimationFrame(() => resolve(performance.now())));
  await new Promise((resolve) => {
    const {port1, port2} = new MessageChannel();
    port1.onmessage = resolve;
    port2.postMessage(0);
  });
  return worked + performance.now() - frame;
})`;
// All bars and arrows in view, and the cursor above them.
const PICTURE = `(() => {
  const begin = performance.now();
  timeline.drawBase();
  timeline.drawTop();
  return performance.now() - begin;
})()`;

function told(numbers) {
  const sorted = [...numbers].sort((one, two) => one - two), at = (part) => sorted[Math.floor(part * sorted.length)];
  return `median ${at(0.5).toFixed(1)} ms, 95th percentile ${at(0.95).toFixed(1)}`;
}

const page = await Page.open(pathToFileURL(file).href);
await page.run("ready");
// Only Chromium reports what its thread took of a processor, which no other work on the machine changes much.
const hasThreadTime = (process.env.BROWSER ?? "chromium") === "chromium";
if (hasThreadTime) await page.send("Performance.enable", {timeDomain: "threadTicks"});

async function threadTime() {
  if (!hasThreadTime) return 0;
  const {metrics} = await page.send("Performance.getMetrics");
  return metrics.find(({name}) => name === "TaskDuration").value * 1000;
}

const text = readFileSync(image).toString("base64");
await page.run(`closeStory(); perform(() => open({name: "walk", image: bytesOf("${text}"), course: {kind: "steps"}}))`);
for (const size of SIZES) {
  while (await page.run("script.length") < size) await page.run(`runMany(Math.min(10000, ${size} - script.length))`);
  const times = async (what, actions) => {
    const found = [], ofThread = [];
    for (const action of actions) {
      const before = await threadTime();
      found.push(await page.run(action));
      ofThread.push(await threadTime() - before);
    }
    const own = hasThreadTime ? `; of the thread's own time ${told(ofThread)}` : "";
    console.log(`${size} acts, ${what}: ${told(found)}${own}`);
  };
  const from = size >> 1, each = (place) => Array.from({length: STEPS}, (_, step) => `${STEP}(${place(step)})`);
  await page.run(`go(${from})`);
  await times("a step on", each((step) => from + step + 1));
  await times("a step back", each((step) => from + STEPS - step));
  await times("a leap", each((step) => (step * 7919) % size));
  await page.run(`go(${from})`);
  await times("the whole picture", Array(STEPS).fill(PICTURE));
  const made = [], gaps = [];
  for (let act = 0; act < NEW_ACTS; act++) {
    const [taken, gap] = await page.run(`(async () => {
      let last = performance.now(), most = 0;
      const timer = setInterval(() => {
        most = Math.max(most, performance.now() - last);
        last = performance.now();
      }, 1);
      const begin = performance.now();
      await addActs(["advance"]);
      document.body.getBoundingClientRect();
      clearInterval(timer);
      return [performance.now() - begin, most];
    })()`);
    made.push(taken);
    gaps.push(gap);
  }
  console.log(`${size} acts, a new one: ${told(made)}; the page's own thread stood still for ${told(gaps)}`);
}
await Page.quit();
