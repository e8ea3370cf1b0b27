"use strict";
// Is run in a page that is tested in a browser: uses its controls and gives what it finds.
(async () => {
  const found = { widths: {}, saved: {} };
  const wait = (milliseconds) => new Promise((done) => setTimeout(done, milliseconds));
  const at = (id) => document.getElementById(id);
  while (at("shown").hidden && at("problem").hidden) await wait(10);

  // CRC-32 of the canvas's red, green and blue.
  const sum = () => {
    const canvas = at("carved");
    const bytes = canvas.getContext("2d").getImageData(0, 0, canvas.width, canvas.height).data;
    return checksum(bytes.filter((_, place) => place % 4 < 3));
  };
  const slide = (width) => {
    at("width").value = width;
    at("width").dispatchEvent(new Event("input", { bubbles: true }));
  };
  const tick = (id, checked) => {
    if (at(id).checked !== checked) at(id).click();
  };
  // What is saved is taken up here instead of by the browser.
  const blobs = [];
  const made = URL.createObjectURL;
  URL.createObjectURL = (blob) => (blobs.push(blob), made.call(URL, blob));
  const names = [];
  HTMLAnchorElement.prototype.click = function () {
    names.push(this.download);
  };

  found.problem = at("problem").textContent;
  found.facts = at("facts").textContent;
  found.range = [Number(at("width").min), Number(at("width").max)];
  found.start = { width: Number(at("width").value), sum: sum() };
  for (let width = found.range[0]; width <= found.range[1]; width++) {
    slide(width);
    found.widths[width] = { sum: sum(), canvas: [at("carved").width, at("carved").height], told: at("told").textContent,
      spoken: at("width").getAttribute("aria-valuetext"), label: at("carved").getAttribute("aria-label") };
  }
  at("original").click();
  tick("seams", true);
  at("count").value = 2;
  at("count").dispatchEvent(new Event("input", { bubbles: true }));
  found.seams = { sum: sum(), legend: at("legend").textContent, hash: location.hash };
  tick("seams", false);
  at("file").click();
  at("picture").click();
  while (blobs.length < 2) await wait(10);
  const digits = (byte) => byte.toString(16).padStart(2, "0");
  const letters = async (blob) => Array.from(new Uint8Array(await blob.arrayBuffer()), digits).join("");
  found.saved = { names, file: await letters(blobs[0]), picture: await letters(blobs[1]) };
  tick("scaled", true);
  found.stretched = [at("plain").hidden, at("stretched").style.width, at("carved").style.width];
  at("play").click();
  found.playing = at("play").textContent;
  // Playing goes from column to column. It may be back where it began when it is stopped.
  const seen = new Set();
  for (let turn = 0; turn < 40; turn++) {
    await wait(10);
    seen.add(Number(at("width").value));
  }
  at("play").click();
  const stopped = at("width").value;
  await wait(200);
  found.played = { button: at("play").textContent, several: seen.size > 1, stopped: at("width").value === stopped };
  // Where the window is followed, the picture has no more room than there is; zoomed, it is shown larger.
  tick("scaled", false);
  tick("follow", true);
  const frame = at("carved").parentElement;
  const zooms = [];
  for (const { value } of at("zoom").options) {
    at("zoom").value = value;
    at("zoom").dispatchEvent(new Event("change", { bubbles: true }));
    const width = Number(at("width").value);
    const wider = (width + 1) * value > at("figures").clientWidth - (frame.offsetWidth - at("carved").offsetWidth);
    zooms.push([at("carved").offsetWidth === width * value, width === found.range[0] || frame.scrollWidth <= frame.clientWidth,
      width === found.range[1] || wider]);
  }
  found.zooms = zooms;
  slide(found.range[1]);
  found.following = at("follow").checked;
  location.hash = `#${found.range[0]}`;
  await wait(50);
  found.linked = Number(at("width").value);
  // Each control has a name that is read out, and none is out of the keyboard's reach.
  const named = (control) => control.labels?.length > 0 || control.textContent.trim() !== "";
  const controls = [...document.querySelectorAll("input, select, button")];
  found.unnamed = controls.filter((control) => !named(control) || control.tabIndex < 0).length;
  return found;
})();
