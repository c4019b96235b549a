// ---- pictures of the page for the documents: node pictures.mjs PAGE FOLDER makes each of them in a folder

import {join} from "node:path";
import {pathToFileURL} from "node:url";

const {Page} = await import(`./${process.env.BROWSER ?? "chromium"}.mjs`);
const [, , file, folder] = process.argv;
const STEPS = 5;

// Each picture with its address, the size of the window, and what is done before it is taken.
const PICTURES = [
  ["page.png", "", {width: 1280, height: 720}, `for (let step = 0; step < ${STEPS}; step++) at("story-on").click()`],
  ["page_lockstep.png", "#example=shortest_paths&acts=lockstep+1000+1", {width: 1280, height: 720}, "0"],
];

for (const [name, hash, how, before] of PICTURES) {
  const page = await Page.open(`${pathToFileURL(file).href}${hash}`, how);
  await page.run("ready");
  await page.run(`${before}; chain.then(() => new Promise((resolve) => setTimeout(resolve, 500)))`);
  await page.shoot(join(folder, name));
  await page.close();
  console.log(name);
}
await Page.quit();
