"use strict";
// The page itself: what its controls do. The file is read and drawn by reader.js, pictures are written by png.js.

const element = (id) => document.getElementById(id);

// How many seams are drawn at first, and how long a step of playing takes, in milliseconds.
const SEAMS_AT_FIRST = 60;
const STEP = 40;

// "1 seam", "2 seams".
function counted(count, what) {
  return `${count.toLocaleString("en")} ${what}${count === 1 ? "" : "s"}`;
}

// A width in words.
function told(file, width) {
  if (width < file.width) return `${width}, ${counted(file.width - width, "seam")} cut`;
  if (width > file.width) return `${width}, ${counted(width - file.width, "seam")} doubled`;
  return `${width}, the original`;
}

// Puts a picture on a canvas, at a size on the page.
function put(canvas, picture, width, height) {
  canvas.width = picture.width;
  canvas.height = picture.height;
  canvas.style.width = `${width}px`;
  canvas.style.height = `${height}px`;
  canvas.getContext("2d").putImageData(new ImageData(opaque(picture), picture.width, picture.height), 0, 0);
}

// Hands a blob to the browser as a file to save.
function save(blob, name) {
  const link = document.createElement("a");
  link.href = URL.createObjectURL(blob);
  link.download = name;
  link.click();
  // The browser has taken it up by then.
  setTimeout(() => URL.revokeObjectURL(link.href), 60000);
}

// The page of a file: the width shown, and the way it goes while it plays.
class View {
  constructor(bytes) {
    this.bytes = bytes;
    this.file = readFile(new TextDecoder().decode(bytes));
    this.name = document.querySelector("main").dataset.name;
    [this.least, this.most] = widthsOf(this.file);
    this.width = this.file.width;
    this.timer = 0;
    this.way = -1;
    this.prepare();
    this.listen();
  }

  // Sets the controls to what the file offers.
  prepare() {
    const { file, least, most } = this;
    Object.assign(element("width"), { min: least, max: most });
    Object.assign(element("count"), { max: Math.max(file.depth, 1), value: Math.max(Math.min(SEAMS_AT_FIRST, file.depth), 1) });
    element("play").disabled = least === most;
    for (const id of ["seams", "count"]) element(id).disabled = file.depth === 0;
    element("zoom").value = [8, 4, 2].find((zoom) => zoom * most <= 900 && zoom * file.height <= 480) ?? 1;
    const facts = {
      Original: `${file.width} by ${file.height}, ${file.channels === 3 ? "rgb" : "grey"}`,
      Widths: least === most ? `${least}` : `${least} to ${most}`,
      Seams: `${file.depth}`,
      Energy: file.energy,
      "Multi-size file": counted(this.bytes.length, "byte"),
    };
    for (const [name, value] of Object.entries(facts)) {
      element("facts").append(document.createElement("dt"), document.createElement("dd"));
      element("facts").lastChild.previousSibling.textContent = name;
      element("facts").lastChild.textContent = value;
    }
  }

  listen() {
    const on = (id, event, act) => element(id).addEventListener(event, act);
    on("width", "input", () => (this.leave(), this.show(Number(element("width").value))));
    on("width", "change", () => this.remember());
    on("play", "click", () => (this.timer ? this.stop() : this.play()));
    on("original", "click", () => (this.leave(), this.show(this.file.width), this.remember()));
    on("follow", "change", () => (this.stop(), this.follow()));
    for (const id of ["seams", "scaled"]) on(id, "change", () => this.show(this.width));
    on("count", "input", () => ((element("seams").checked = true), this.show(this.width)));
    on("zoom", "change", () => (this.follow(), this.show(this.width)));
    on("file", "click", () => save(new Blob([this.bytes], { type: "application/octet-stream" }), `${this.name}.multi`));
    on("picture", "click", () => this.savePicture().catch(problem));
    window.addEventListener("resize", () => this.follow());
    window.addEventListener("hashchange", () => this.recall());
  }

  // What is drawn at the width shown.
  picture() {
    const picture = pictureAt(this.file, this.width);
    if (!element("seams").checked) return picture;
    return withSeams(picture, ...this.seams());
  }

  // The first and the last of the seams drawn.
  seams() {
    return seamsAt(this.file, this.width, Math.max(1, Math.floor(Number(element("count").value)) || 1));
  }

  // Shows the file at the offered width that is nearest.
  show(width) {
    this.width = Math.min(Math.max(Math.round(width), this.least), this.most);
    const words = told(this.file, this.width);
    const zoom = Number(element("zoom").value);
    element("width").value = this.width;
    element("width").setAttribute("aria-valuetext", words);
    element("told").textContent = words;
    put(element("carved"), this.picture(), this.width * zoom, this.file.height * zoom);
    element("carved").setAttribute("aria-label", `${this.name}, width ${words}`);
    this.showLegend();
    element("plain").hidden = !element("scaled").checked;
    if (element("scaled").checked) {
      put(element("stretched"), pictureAt(this.file, this.file.width), this.width * zoom, this.file.height * zoom);
      element("stretched").setAttribute("aria-label", `${this.name}, scaled to the width ${this.width}`);
    }
  }

  showLegend() {
    const [first, last] = this.seams();
    const which = first === last ? `Seam ${first}` : `Seams ${first} (blue) to ${last} (red)`;
    const why = this.width > this.file.width ? "doubled last" : "cut next";
    element("legend").hidden = !element("seams").checked;
    element("legend").textContent = last < first ? "No seam is left to cut." : `${which}: ${why}.`;
  }

  // Narrower and wider in turns, a column a step. It turns at a quarter of the original, where little is left to see.
  play() {
    element("follow").checked = false;
    element("play").textContent = "Stop";
    const turn = Math.max(this.least, Math.min(Math.ceil(this.file.width / 4), this.most - 1));
    this.timer = setInterval(() => {
      if (this.width <= turn) this.way = 1;
      if (this.width >= this.most) this.way = -1;
      this.show(this.width + this.way);
    }, STEP);
  }

  stop() {
    if (!this.timer) return;
    clearInterval(this.timer);
    this.timer = 0;
    element("play").textContent = "Play";
    this.remember();
  }

  // The width is chosen by hand: it no longer plays or follows the window.
  leave() {
    this.stop();
    element("follow").checked = false;
  }

  // Shows the width that has room in the window, where that is asked for.
  follow() {
    if (!element("follow").checked) return;
    const style = getComputedStyle(element("carved").parentElement);
    const around = [style.paddingLeft, style.paddingRight, style.borderLeftWidth, style.borderRightWidth].map(parseFloat);
    const room = around.reduce((left, edge) => left - edge, element("figures").clientWidth);
    this.show(Math.floor(room / Number(element("zoom").value)));
  }

  // Keeps the width in the page's address, so that a link can name it.
  remember() {
    history.replaceState(null, "", `#${this.width}`);
  }

  // Shows the width that the address names, or the original.
  recall() {
    const named = /^#\d{1,4}$/.test(location.hash) ? Number(location.hash.slice(1)) : this.width;
    this.show(named);
  }

  async savePicture() {
    const drawn = element("seams").checked ? "-seams" : "";
    save(await pngOf(this.picture()), `${this.name}-${this.width}${drawn}.png`);
  }
}

function problem(error) {
  element("problem").textContent = `The file in this page can't be shown: ${error.message ?? error}.`;
  element("problem").hidden = false;
}

async function start() {
  if (typeof DecompressionStream === "undefined") throw new Error("this browser can't decompress it (DecompressionStream)");
  const view = new View(await unpack(element("data").textContent));
  element("shown").hidden = false;
  view.recall();
}

start().catch(problem);
