"use strict";
// Opens pages in a headless browser, runs hook.js in them, presses keys, and judges what is found.
//   node browse.js MULTISIZE FOLDER BROWSER
const { execFileSync } = require("node:child_process");
const fs = require("node:fs");
const path = require("node:path");
const { pictures, energyOf } = require("./pictures.js");
const { decoded, sumOf } = require("./decode.js");
const { Browser } = require("./devtools.js");

const [program, folder, browserName] = process.argv.slice(2);
let [passed, failed] = [0, 0];

function check(name, given, wanted) {
  if (JSON.stringify(given) === JSON.stringify(wanted)) {
    passed++;
  } else {
    failed++;
    console.log(`${name}: failed: ${JSON.stringify(given)} instead of ${JSON.stringify(wanted)}`);
  }
}

const inFolder = (name) => path.join(folder, name);
const multisize = (...words) => execFileSync(program, words, { maxBuffer: 1 << 26 });

// A plain Netpbm picture: its samples, and those in rgb.
function netpbm(bytes) {
  const [magic, size] = bytes.toString("latin1", 0, 40).split("\n");
  const samples = bytes.subarray(`${magic}\n${size}\n255\n`.length);
  const rgb = magic === "P6" ? samples : Buffer.from([...samples].flatMap((sample) => [sample, sample, sample]));
  return { size: size.split(" ").map(Number), samples, rgb };
}

const hook = fs.readFileSync(path.join(__dirname, "hook.js"), "utf8");

// The keys move the slider, and the tabulator leads through all controls in their order on the page.
async function pressKeys(name, browser, { width, least, most }) {
  const told = () => browser.run(`document.getElementById("told").textContent.split(",")[0]`).then(Number);
  const focus = "document.activeElement";
  const reached = () => browser.run(`${focus}.id || ${focus}.className || ${focus}.tagName`);
  await browser.run(`document.getElementById("original").click(), document.getElementById("width").focus()`);
  await browser.press("ArrowLeft", 37);
  check(`${name}: left`, await told(), Math.max(width - 1, least));
  await browser.press("End", 35);
  check(`${name}: end`, await told(), most);
  await browser.press("Home", 36);
  check(`${name}: home`, await told(), least);
  await browser.press("ArrowRight", 39);
  check(`${name}: right`, await told(), Math.min(least + 1, most));
  const order = ["play", "original", "zoom", "seams", "count", "follow", "scaled", "frame", "picture", "file", "SUMMARY"];
  const met = [];
  for (const _ of order) {
    await browser.press("Tab", 9);
    met.push(await reached());
  }
  check(`${name}: tabulator`, met, order);
}

function words(width, original) {
  const seams = (count) => `${count} seam${count === 1 ? "" : "s"}`;
  if (width < original) return `${width}, ${seams(original - width)} cut`;
  return width > original ? `${width}, ${seams(width - original)} doubled` : `${width}, the original`;
}

async function compare(name, source, options, browser) {
  fs.writeFileSync(inFolder(`${name}.netpbm`), source);
  multisize("build", inFolder(`${name}.netpbm`), "-o", inFolder(`${name}.multi`), ...options);
  multisize("page", inFolder(`${name}.multi`), "-o", inFolder(`${name}.html`));
  await browser.open(`file://${inFolder(`${name}.html`)}`);
  const found = await browser.run(hook);
  const shown = (width) => netpbm(multisize("show", inFolder(`${name}.multi`), `${width}`, "-o", "-"));
  const [original] = netpbm(source).size;
  const [least, most] = found.range;
  check(`${name}: problem`, found.problem, "");
  check(`${name}: energy`, found.facts.includes(`Energy${energyOf(options)}`), true);
  check(`${name}: start`, found.start, { width: original, sum: sumOf(netpbm(source).rgb) });
  for (let width = least; width <= most; width++) {
    const said = words(width, original);
    const { rgb, size } = shown(width);
    const wanted = { sum: sumOf(rgb), canvas: size, told: said, spoken: said, label: `${name}, width ${said}` };
    check(`${name} at ${width}`, found.widths[width], wanted);
  }
  const drawn = netpbm(multisize("seams", inFolder(`${name}.multi`), "--first", "2", "-o", "-"));
  const legend = "Seams 1 (blue) to 2 (red): cut next.";
  check(`${name}: seams`, found.seams, { sum: sumOf(drawn.rgb), legend, hash: `#${original}` });
  check(`${name}: names`, found.saved.names, [`${name}.multi`, `${name}-${original}.png`]);
  check(`${name}: file`, found.saved.file, fs.readFileSync(inFolder(`${name}.multi`)).toString("hex"));
  const png = decoded(Buffer.from(found.saved.picture, "hex"));
  check(`${name}: picture`, png.samples.equals(netpbm(source).samples), true);
  check(`${name}: scaled`, found.stretched, [false, found.stretched[2], found.stretched[2]]);
  check(`${name}: play`, [found.playing, found.played], ["Stop", { button: "Play", several: true, stopped: true }]);
  check(`${name}: zoom and window`, found.zooms, Array(4).fill([true, true, true]));
  check(`${name}: following ends by hand`, found.following, false);
  check(`${name}: link`, found.linked, least);
  check(`${name}: controls without a name`, found.unnamed, 0);
  await pressKeys(name, browser, { width: original, least, most });
}

async function main() {
  const browser = new Browser(browserName, inFolder("profile"));
  try {
    const chosen = ["worked", "worked-by-flat", "worked-by-forward", "slope", "noise-grey", "noise-rgb", "shallow"];
    for (const [name, source, options] of pictures()) {
      if (chosen.includes(name)) await compare(name, source, options, browser);
    }
  } catch (error) {
    failed++;
    console.log(error);
  }
  await browser.close();
  console.log(`${passed} passed, ${failed} failed`);
  process.exitCode = failed === 0 ? 0 : 1;
}

main();
