"use strict";
// The pictures that the page is tested on: small ones, grey and rgb, with the edges of sizes and ranges among them.

// Numbers that look random and are the same in each run.
function numbersFrom(seed) {
  let state = seed;
  return () => (state = (Math.imul(state, 1664525) + 1013904223) >>> 0) >>> 24;
}

// A Netpbm picture whose samples are given by column, row and channel.
function netpbm(width, height, channels, sample) {
  const bytes = Buffer.alloc(width * height * channels);
  for (let at = 0; at < bytes.length; at++) {
    const pixel = Math.floor(at / channels);
    bytes[at] = sample(pixel % width, Math.floor(pixel / width), at % channels);
  }
  return Buffer.concat([Buffer.from(`P${channels === 3 ? 6 : 5}\n${width} ${height}\n255\n`), bytes]);
}

const worked = (column, row) => [[10, 10, 40], [10, 50, 40]][row][column];
const flat = () => 7;
const slope = (column, row, channel) => column * 5 + row * 3 + channel * 40;
const steps = (column, row) => (column > 6 ? 200 : 20) + (row > 3 ? 30 : 0);
const noise = (seed) => numbersFrom(seed);

// Noise that is weaker from column to column and none in the last: the first seams go there, so that the last two columns
// are doubled.
function fading(seed, width) {
  const number = numbersFrom(seed);
  return (column) => 100 + (number() % (1 + 8 * (width - 1 - column)));
}

// Name, Netpbm bytes, and the options of `multisize build`.
function pictures() {
  return [
    ["worked", netpbm(3, 2, 1, worked), []],
    ["one-pixel", netpbm(1, 1, 3, slope), []],
    ["one-column", netpbm(1, 7, 1, noise(1)), []],
    ["two-columns", netpbm(2, 5, 3, noise(2)), []],
    ["one-row", netpbm(41, 1, 1, noise(3)), []],
    ["flat-grey", netpbm(13, 8, 1, flat), []],
    ["flat-rgb", netpbm(12, 5, 3, flat), []],
    ["slope", netpbm(30, 20, 3, slope), []],
    ["steps", netpbm(19, 9, 1, steps), []],
    ["noise-grey", netpbm(37, 23, 1, noise(4)), []],
    ["noise-rgb", netpbm(36, 21, 3, noise(5)), []],
    ["fading-grey", netpbm(14, 9, 1, fading(10, 14)), []],
    ["fading-rgb", netpbm(15, 9, 3, fading(11, 15)), []],
    ["worked-by-flat", netpbm(3, 2, 1, worked), ["--energy", "flat"]],
    ["noise-by-flat", netpbm(22, 13, 3, noise(12)), ["--energy", "flat"]],
    ["worked-by-forward", netpbm(3, 2, 1, worked), ["--energy", "forward"]],
    ["noise-by-forward", netpbm(21, 14, 3, noise(13)), ["--energy", "forward"]],
    ["shallow", netpbm(25, 10, 3, noise(6)), ["--depth", "6", "--growth", "2"]],
    ["no-seam", netpbm(9, 4, 1, noise(7)), ["--depth", "0"]],
    ["no-growth", netpbm(16, 12, 1, noise(8)), ["--growth", "0"]],
    ["widest", netpbm(512, 2, 3, noise(9)), ["--depth", "20"]],
  ];
}

// The energy that these options of `multisize build` name.
const energyOf = (options) => (options[0] === "--energy" ? options[1] : "edge");

module.exports = { pictures, energyOf };
