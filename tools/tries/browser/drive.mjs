// ---- all looks at the page in a browser: node drive.mjs PAGE FOLDER writes a line of JSON for each of them

import {Page} from "./driver.mjs";
import {KEPT_LOOKS} from "./kept_looks.mjs";
import {LAYOUT_LOOKS} from "./layout_looks.mjs";
import {LOOKS} from "./looks.mjs";
import {LONG_LOOKS} from "./long_looks.mjs";
import {TIMELINE_LOOKS} from "./timeline_looks.mjs";
import {WORK_LOOKS} from "./work_looks.mjs";

const TRIES = {...LOOKS, ...TIMELINE_LOOKS, ...LAYOUT_LOOKS, ...WORK_LOOKS, ...KEPT_LOOKS, ...LONG_LOOKS};
const chosen = Object.entries(TRIES).filter(([name]) => !process.env.ONLY || name.includes(process.env.ONLY));
for (const [name, attempt] of chosen) {
  try {
    await attempt();
    console.log(JSON.stringify({name}));
  } catch (error) {
    console.log(JSON.stringify({name, failed: error.message}));
  }
}
await Page.quit();
