"use strict";
// Reads a PNG as the page writes it: 8 bits a sample, grey or rgb, each row by any filter.
const zlib = require("node:zlib");

const SIGNATURE = Buffer.from("89504e470d0a1a0a", "hex");

// The parts of the file by their names, once each.
function partsOf(png) {
  const parts = {};
  for (let at = SIGNATURE.length; at < png.length; ) {
    const length = png.readUInt32BE(at);
    const name = png.toString("latin1", at + 4, at + 8);
    const sum = sumOf(png.subarray(at + 4, at + 8 + length));
    if (png.readUInt32BE(at + 8 + length) !== sum) throw new Error(`the sum of ${name}`);
    parts[name] = png.subarray(at + 8, at + 8 + length);
    at += 12 + length;
  }
  return parts;
}

// CRC-32, bit by bit.
function sumOf(bytes) {
  let sum = 0xffffffff;
  for (const byte of bytes) {
    for (let bit = 0; bit < 8; bit++) sum = (sum >>> 1) ^ ((sum ^ (byte >> bit)) & 1 ? 0xedb88320 : 0);
  }
  return (sum ^ 0xffffffff) >>> 0;
}

// What a filter adds to a sample, from the samples left, above and left above.
function predicted(filter, left, above, corner) {
  const guess = left + above - corner;
  const nearest = [left, above, corner].reduce((best, one) => (Math.abs(guess - one) < Math.abs(guess - best) ? one : best));
  return [0, left, above, (left + above) >> 1, nearest][filter];
}

// Width, height, channels and samples of a PNG.
function decoded(png) {
  if (!png.subarray(0, 8).equals(SIGNATURE)) throw new Error("no PNG");
  const { IHDR, IDAT } = partsOf(png);
  const [width, height] = [IHDR.readUInt32BE(0), IHDR.readUInt32BE(4)];
  const channels = IHDR[9] === 2 ? 3 : 1;
  if (!IHDR.subarray(8).equals(Buffer.from([8, channels === 3 ? 2 : 0, 0, 0, 0]))) throw new Error("another form of PNG");
  const lines = zlib.inflateSync(IDAT);
  const length = width * channels;
  if (lines.length !== (length + 1) * height) throw new Error("too many or too few rows");
  const samples = Buffer.alloc(length * height);
  for (let at = 0; at < samples.length; at++) {
    const [row, column] = [Math.floor(at / length), at % length];
    const left = column >= channels ? samples[at - channels] : 0;
    const above = row > 0 ? samples[at - length] : 0;
    const corner = row > 0 && column >= channels ? samples[at - length - channels] : 0;
    const start = row * (length + 1);
    samples[at] = lines[start + 1 + column] + predicted(lines[start], left, above, corner);
  }
  return { width, height, channels, samples };
}

module.exports = { decoded, sumOf };
