"use strict";
// Reads a multi-size file and works out its picture at a width, as docs/FILE.md says. Nothing here needs a page: the
// tests run it as it is. A samples array has the rows from the top, the pixels from the left, `channels` bytes a pixel.

// The bytes that were compressed (zlib) and printed in base64.
async function unpack(base64) {
  const packed = Uint8Array.from(atob(base64), (letter) => letter.charCodeAt(0));
  const stream = new Blob([packed]).stream().pipeThrough(new DecompressionStream("deflate"));
  return new Uint8Array(await new Response(stream).arrayBuffer());
}

// A place in a text, which moves on as the text is read. What doesn't stand there is an error.
class Place {
  constructor(text) {
    this.text = text;
    this.at = 0;
  }

  fail(missing) {
    const line = this.text.slice(0, this.at).split("\n").length;
    throw new Error(`line ${line} of the file lacks ${missing}`);
  }

  // Passes these words.
  pass(words) {
    if (!this.text.startsWith(words, this.at)) this.fail(JSON.stringify(words));
    this.at += words.length;
  }

  // Passes one of these words and gives it. None of them begins another.
  word(known) {
    const word = known.find((one) => this.text.startsWith(one, this.at)) ?? this.fail(known.join(" or "));
    this.at += word.length;
    return word;
  }

  // Passes a number without leading zeros, at most `most`, and gives it.
  number(most) {
    const start = this.at;
    let value = 0;
    for (; value <= most; this.at++) {
      const digit = this.text.charCodeAt(this.at) - 48;
      if (!(digit >= 0 && digit <= 9) || (value === 0 && this.at > start)) break;
      value = value * 10 + digit;
    }
    if (this.at === start || value > most) this.fail(`a number up to ${most}`);
    return value;
  }
}

const LARGEST_SIDE = 512;
const ENERGIES = ["edge", "flat", "forward"];

// What stands in a file's text: width, height, channels, depth, growth, the energy that its seams are found by, the samples,
// and for each pixel the number of the seam that takes it, or 0. The form, the counts and the numbers of each map row are
// judged. Whether the seams are the cheapest isn't: `multisize page` has checked that.
function readFile(text) {
  const place = new Place(text);
  place.pass("(multi\n(size ");
  const width = place.number(LARGEST_SIDE);
  place.pass(" ");
  const height = place.number(LARGEST_SIDE);
  const channels = text.startsWith(" rgb", place.at) ? 3 : 1;
  place.pass(channels === 3 ? " rgb)\n(range " : " grey)\n(range ");
  if (width === 0 || height === 0) place.fail("a side over 0 before it");
  const depth = place.number(width - 1);
  place.pass(" ");
  const growth = place.number(Math.min(depth, Math.floor(width / 2)));
  place.pass(")\n(energy ");
  const energy = place.word(ENERGIES);
  place.pass(")\n");
  const samples = readRows(place, width, height, channels);
  const map = readMap(place, width, height, depth);
  place.pass(")\n");
  if (place.at < text.length) place.fail("its end");
  return { width, height, channels, depth, growth, energy, samples, map };
}

function readRows(place, width, height, channels) {
  const samples = new Uint8Array(width * height * channels);
  let at = 0;
  for (let row = 0; row < height; row++) {
    place.pass("(row");
    for (let column = 0; column < width; column++) {
      place.pass(channels === 3 ? " (" : " ");
      for (let channel = 0; channel < channels; channel++) {
        if (channel > 0) place.pass(" ");
        samples[at++] = place.number(255);
      }
      if (channels === 3) place.pass(")");
    }
    place.pass(")\n");
  }
  return samples;
}

function readMap(place, width, height, depth) {
  const map = new Uint16Array(width * height);
  let at = 0;
  for (let row = 0; row < height; row++) {
    place.pass("(map");
    const met = new Set();
    for (let column = 0; column < width; column++) {
      place.pass(" ");
      map[at] = place.number(depth);
      if (map[at] > 0) met.add(map[at]);
      at++;
    }
    // Of `depth` different numbers and zeros alone, each stands once.
    const zeros = map.subarray(at - width, at).filter((number) => number === 0).length;
    if (met.size !== depth || zeros !== width - depth) place.fail("a seam's number, or has one twice");
    place.pass(")\n");
  }
  return map;
}

// The least and the greatest width that a file offers.
function widthsOf(file) {
  return [file.width - file.depth, file.width + file.growth];
}

// A file's picture at a width: its samples, and for each pixel the number of its seam. Narrower, the first seams are left
// out; wider, they are doubled: the mean with the right neighbour stands to the right of the pixel, in the last column the
// mean with the left neighbour to its left.
function pictureAt(file, wanted) {
  const { width, height, channels, map } = file;
  const cut = Math.max(width - wanted, 0);
  const doubled = Math.max(wanted - width, 0);
  const picture = { width: wanted, height, channels };
  picture.samples = new Uint8Array(wanted * height * channels);
  picture.numbers = new Uint16Array(wanted * height);
  let end = 0;
  // Puts the mean of two pixels, which is the pixel where both are the same.
  const put = (one, other) => {
    picture.numbers[end] = map[one];
    for (let channel = 0; channel < channels; channel++) {
      const sum = file.samples[one * channels + channel] + file.samples[other * channels + channel];
      picture.samples[end * channels + channel] = sum >> 1;
    }
    end++;
  };
  for (let at = 0; at < map.length; at++) {
    const number = map[at];
    if (number > 0 && number <= cut) continue;
    const twice = number > 0 && number <= doubled;
    const last = at % width === width - 1;
    if (twice && last) put(at, at - 1);
    put(at, at);
    if (twice && !last) put(at, at + 1);
  }
  return picture;
}

// The first and the last of the seams drawn at a width, `count` at most: those that are cut next, and of a picture that is
// wider those doubled last. There are none where the last is less than the first.
function seamsAt(file, wanted, count) {
  if (wanted > file.width) {
    const last = wanted - file.width;
    return [Math.max(1, last - count + 1), last];
  }
  const cut = file.width - wanted;
  return [cut + 1, Math.min(cut + count, file.depth)];
}

// The colour of seam `place` of `count`: from blue for the first over green to red for the last.
function colourOf(place, count) {
  const part = Math.floor(((place - 1) * 1020) / Math.max(count - 1, 1));
  const step = part % 255;
  return [[0, step, 255], [0, 255, 255 - step], [step, 255, 0], [255, 255 - step, 0], [255, 0, 0]][Math.floor(part / 255)];
}

// The picture in rgb, with the seams `first` to `last` in colours.
function withSeams(picture, first, last) {
  const { width, height, channels, samples, numbers } = picture;
  const colours = [];
  for (let number = first; number <= last; number++) colours.push(colourOf(number - first + 1, last - first + 1));
  const drawn = new Uint8Array(width * height * 3);
  for (let at = 0; at < numbers.length; at++) {
    const colour = colours[numbers[at] - first];
    for (let channel = 0; channel < 3; channel++) {
      drawn[at * 3 + channel] = colour ? colour[channel] : samples[at * channels + (channels === 3 ? channel : 0)];
    }
  }
  return { width, height, channels: 3, samples: drawn, numbers };
}

// The samples as a canvas wants them: red, green, blue and 255, which is opaque.
function opaque(picture) {
  const { channels, samples } = picture;
  const bytes = new Uint8ClampedArray((samples.length / channels) * 4).fill(255);
  for (let from = 0, to = 0; from < samples.length; from += channels, to += 4) {
    bytes[to] = samples[from];
    bytes[to + 1] = samples[channels === 3 ? from + 1 : from];
    bytes[to + 2] = samples[channels === 3 ? from + 2 : from];
  }
  return bytes;
}
