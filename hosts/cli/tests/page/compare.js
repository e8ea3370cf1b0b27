"use strict";
// Runs the scripts of pages that the program wrote, and compares what they read and draw with what the program writes.
//   node compare.js MULTISIZE FOLDER
const { execFileSync } = require("node:child_process");
const fs = require("node:fs");
const path = require("node:path");
const { pictures, energyOf } = require("./pictures.js");
const { decoded } = require("./decode.js");

const [program, folder] = process.argv.slice(2);
const root = path.join(__dirname, "../../../..");
const course = path.join(root, "pictures/terrain-small.ppm");
let [passed, failed] = [0, 0];

function check(name, holds) {
  if (holds) {
    passed++;
  } else {
    failed++;
    console.log(`${name}: failed`);
  }
}

const multisize = (...words) => execFileSync(program, words, { maxBuffer: 1 << 26 });
const inFolder = (name) => path.join(folder, name);

// The samples of a plain Netpbm picture.
function samplesOf(bytes) {
  const [magic, size] = bytes.toString("latin1", 0, 40).split("\n");
  return { size, channels: magic === "P6" ? 3 : 1, samples: bytes.subarray(`${magic}\n${size}\n255\n`.length) };
}

// The samples as a canvas has them: red, green, blue and 255.
function dotsOf({ channels, samples }) {
  const dots = [];
  for (let at = 0; at < samples.length; at += channels) {
    dots.push(samples[at], samples[at + (channels === 3 ? 1 : 0)], samples[at + (channels === 3 ? 2 : 0)], 255);
  }
  return dots;
}

// The functions of a page's scripts, and its data.
function opened(page) {
  const scripts = [...page.matchAll(/<script>\n([^]*?)<\/script>/g)].map((match) => match[1]);
  const names = "unpack, readFile, widthsOf, pictureAt, seamsAt, colourOf, withSeams, opaque, pngOf";
  const functions = new Function(`${scripts[0]}\n${scripts[1]}\nreturn { ${names} };`)();
  return { ...functions, data: page.match(/<script id="data"[^>]*>([^]*?)<\/script>/)[1] };
}

function same(bytes, others) {
  return Buffer.compare(Buffer.from(bytes), Buffer.from(others)) === 0;
}

// The page's picture at a width is the one that the program shows, and so is its PNG and what a canvas gets.
async function compareWidth(name, page, file, width) {
  const shown = samplesOf(multisize("show", inFolder(`${name}.multi`), `${width}`, "-o", "-"));
  const picture = page.pictureAt(file, width);
  check(`${name} at ${width}: size`, shown.size === `${picture.width} ${picture.height}`);
  check(`${name} at ${width}: kind`, shown.channels === picture.channels);
  check(`${name} at ${width}: samples`, same(picture.samples, shown.samples));
  const png = decoded(Buffer.from(await (await page.pngOf(picture)).arrayBuffer()));
  check(`${name} at ${width}: PNG size`, png.width === width && png.channels === shown.channels);
  check(`${name} at ${width}: PNG`, same(png.samples, shown.samples));
  check(`${name} at ${width}: canvas`, same(page.opaque(picture), dotsOf(shown)));
}

// At the original width the next seams are the first ones, which the program draws too.
function compareSeams(name, page, file) {
  for (const count of new Set([1, 2, 5, file.depth])) {
    if (count > file.depth) continue;
    const drawn = samplesOf(multisize("seams", inFolder(`${name}.multi`), "--first", `${count}`, "-o", "-"));
    const picture = page.withSeams(page.pictureAt(file, file.width), ...page.seamsAt(file, file.width, count));
    check(`${name}: ${count} seams`, same(picture.samples, drawn.samples));
  }
}

// At each width the seams drawn have a pixel in each row, or two where they are doubled, and no other pixel is coloured.
function judgeSeams(name, page, file, width) {
  const [first, last] = page.seamsAt(file, width, 4);
  const picture = page.pictureAt(file, width);
  const met = picture.numbers.filter((number) => number >= first && number <= last).length;
  const seams = Math.max(last - first + 1, 0);
  check(`${name} at ${width}: seams`, met === seams * file.height * (width > file.width ? 2 : 1));
}

async function compareFile(name, netpbm, options) {
  fs.writeFileSync(inFolder(`${name}.netpbm`), netpbm);
  multisize("build", inFolder(`${name}.netpbm`), "-o", inFolder(`${name}.multi`), ...options);
  multisize("page", inFolder(`${name}.multi`), "-o", inFolder(`${name}.html`));
  const text = fs.readFileSync(inFolder(`${name}.multi`));
  const page = opened(fs.readFileSync(inFolder(`${name}.html`), "utf8"));
  const bytes = await page.unpack(page.data);
  check(`${name}: the page holds the file`, same(bytes, text));
  const file = page.readFile(new TextDecoder().decode(bytes));
  const [least, most] = page.widthsOf(file);
  const info = multisize("info", inFolder(`${name}.multi`)).toString();
  check(`${name}: widths`, info.includes(`\nwidths ${least} to ${most}\n`));
  check(`${name}: energy`, info.includes(`\nenergy ${file.energy}\n`));
  check(`${name}: energy as asked`, file.energy === energyOf(options));
  for (let width = least; width <= most; width++) {
    await compareWidth(name, page, file, width);
    judgeSeams(name, page, file, width);
  }
  compareSeams(name, page, file);
  return page;
}

// Texts that aren't a file's are refused by the page's reader, with the line where they break off.
function refuseTexts(page) {
  const text = fs.readFileSync(inFolder("worked.multi"), "latin1");
  const refused = (name, wrong) => {
    let message = "";
    try {
      page.readFile(wrong);
    } catch (error) {
      message = error.message;
    }
    check(`refused: ${name}`, wrong !== text && /^line \d+ of the file lacks /.test(message));
  };
  for (let length = 0; length < text.length; length++) refused(`cut after ${length}`, text.slice(0, length));
  const edits = [["(size 3 2 grey)", "(size 03 2 grey)"], ["(size 3 2 grey)", "(size 0 2 grey)"], ["(size 3 2", "(size 3 513"],
    ["grey", "gray"], ["(range 2 1)", "(range 3 1)"], ["(range 2 1)", "(range 2 2)"], ["(energy edge)\n", ""],
    ["(energy edge)", "(energy Edge)"], ["(energy edge)", "(energy steep)"], ["(energy edge)", "(energy edges)"],
    ["(energy edge)", "(energy )"], ["(energy edge)", "(energy)"], ["(energy edge)", "(energy edge)\n(energy edge)"],
    ["(range 2 1)\n(energy edge)", "(energy edge)\n(range 2 1)"], ["(row 10 10 40)", "(row 10 10 256)"],
    ["(row 10 10 40)", "(row 10 10)"], ["(row 10 10 40)", "(row 10 10 40 40)"], ["(map 1 0 2)", "(map 1 0 3)"],
    ["(map 1 0 2)", "(map 2 2 1)"], ["(map 1 0 2)", "(map 1 0 1)"], ["(map 1 0 2)\n)\n", "(map 1 0 2)\n)\n\n"], ["\n", "\r\n"]];
  for (const [from, to] of edits) refused(to, text.replace(from, to));
}

// The heading is text, whatever stands in it, and no page names anything to load.
function judgePage() {
  multisize("page", inFolder("worked.multi"), "-o", inFolder("titled.html"), "--title", `</title><script>1 & "2'@@data@@`);
  const page = fs.readFileSync(inFolder("titled.html"), "utf8");
  check("heading", page.includes("<h1>&lt;/title&gt;&lt;script&gt;1 &amp; &quot;2&#39;@@data@@</h1>"));
  const rest = page.replace(/<script id="data"[^]*?<\/script>/, "");
  check("nothing to load", !/\b(src|href)=|https?:|url\(|@import|import\(|fetch\(/.test(rest));
  check("the policy loads nothing", page.includes(`content="default-src 'none'; script-src 'unsafe-inline'; style-src`));
  const kept = fs.readFileSync(path.join(root, "docs/course.html"));
  check("docs/course.html is the page that is written now", same(fs.readFileSync(inFolder("docs.html")), kept));
}

async function main() {
  let page;
  for (const [name, netpbm, options] of [...pictures(), ["course", fs.readFileSync(course), []]]) {
    page = await compareFile(name, netpbm, options);
  }
  refuseTexts(page);
  judgePage();
  console.log(`${passed} passed, ${failed} failed`);
  process.exitCode = failed === 0 ? 0 : 1;
}

main().catch((error) => {
  console.log(error);
  console.log(`${passed} passed, ${failed + 1} failed`);
  process.exitCode = 1;
});
