"use strict";
// Writes a picture as PNG. A canvas could too, but browsers that guard against being told apart by their canvas change
// some samples; these are the picture's own.

// The sum of a PNG's part, CRC-32.
function checksum(bytes) {
  let sum = ~0;
  for (const byte of bytes) {
    sum ^= byte;
    for (let bit = 0; bit < 8; bit++) sum = sum & 1 ? (sum >>> 1) ^ 0xedb88320 : sum >>> 1;
  }
  return ~sum >>> 0;
}

// A number of four bytes, the highest first.
function fourBytes(number) {
  return [number >>> 24, (number >>> 16) & 255, (number >>> 8) & 255, number & 255];
}

// A part of the file: its length, its name and bytes, and their sum.
function part(name, bytes) {
  const named = new Uint8Array(4 + bytes.length);
  named.set([...name].map((letter) => letter.charCodeAt(0)));
  named.set(bytes, 4);
  return [Uint8Array.from(fourBytes(bytes.length)), named, Uint8Array.from(fourBytes(checksum(named)))];
}

// Each row ahead of it the number of its filter, 4: a sample less that of the pixel left, above or left above, whichever
// is nearest to left + above - left above.
function filtered({ width, height, channels, samples }) {
  const length = width * channels;
  const lines = new Uint8Array((length + 1) * height);
  for (let row = 0; row < height; row++) {
    const start = row * (length + 1);
    lines[start] = 4;
    for (let at = 0; at < length; at++) {
      const here = row * length + at;
      const left = at >= channels ? samples[here - channels] : 0;
      const above = row > 0 ? samples[here - length] : 0;
      const corner = at >= channels && row > 0 ? samples[here - length - channels] : 0;
      const [byLeft, byAbove, byCorner] = [above - corner, left - corner, left + above - 2 * corner].map(Math.abs);
      const nearest = byLeft <= byAbove && byLeft <= byCorner ? left : byAbove <= byCorner ? above : corner;
      lines[start + 1 + at] = samples[here] - nearest;
    }
  }
  return lines;
}

// The PNG of a picture, as a blob: 8 bits a sample, grey or rgb.
async function pngOf(picture) {
  const head = [...fourBytes(picture.width), ...fourBytes(picture.height), 8, picture.channels === 3 ? 2 : 0, 0, 0, 0];
  const stream = new Blob([filtered(picture)]).stream().pipeThrough(new CompressionStream("deflate"));
  const body = new Uint8Array(await new Response(stream).arrayBuffer());
  const signature = Uint8Array.of(137, 80, 78, 71, 13, 10, 26, 10);
  const parts = [signature, ...part("IHDR", head), ...part("IDAT", body), ...part("IEND", [])];
  return new Blob(parts, { type: "image/png" });
}
