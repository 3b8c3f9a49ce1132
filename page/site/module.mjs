// The module of WebAssembly as an object. What a call says is text; where a call did not go well, that is thrown as a Refusal.
export class Refusal extends Error {}

export async function load(module) {
  const { exports } = await WebAssembly.instantiate(module, { env: { now: () => performance.now() } });
  const wasm = new Calls(exports);
  return { names: () => wasm.call("names").split("\n"), ...ofText(wasm), ...ofKeys(wasm), ...ofPicture(wasm), ...ofTexts(wasm) };
}

class Calls {
  constructor(exports) {
    this.exports = exports;
  }

  // A call may move the memory to another buffer: so it comes before this one.
  view(at, length) {
    return new Uint8Array(this.exports.memory.buffer, at >>> 0, length);
  }

  // Puts bytes into the room: a text, a Uint8Array or an ArrayBuffer.
  fill(what) {
    const bytes = typeof what === "string" ? new TextEncoder().encode(what) : what instanceof ArrayBuffer ? new Uint8Array(what) : what;
    if (!(bytes instanceof Uint8Array)) throw new TypeError("a part is a text, a Uint8Array or an ArrayBuffer");
    const at = this.exports.room(bytes.length);
    if (!at) throw new Refusal("The browser has no more memory for this page.");
    this.view(at, bytes.length).set(bytes);
  }

  call(name, ...numbers) {
    const isWell = this.exports[name](...numbers);
    const said = new TextDecoder().decode(this.view(this.exports.said(), this.exports.said_length()));
    if (!isWell) throw new Refusal(said);
    return said;
  }
}

const cells = (text) => text.split("\n").map((line) => line.split("\t"));

// All hashes of a text in parts.
const ofText = (wasm) => ({
  // Under these seeds and keys, each as its user writes it. Returns the rows, each with its name, its bits and what it is under.
  beginText(seeds = []) {
    wasm.fill(seeds.join("\n"));
    return cells(wasm.call("text_begin"));
  },
  // Each part but the last has a multiple of 4096 bytes.
  writeText(part) {
    wasm.fill(part);
    wasm.exports.text_part();
  },
  endText: () => cells(wasm.call("text_end")),
});

// How hashes spread keys, which come in parts.
const ofKeys = (wasm) => ({
  beginKeys: () => wasm.exports.keys_begin(...crypto.getRandomValues(new BigUint64Array(2))),
  writeKeys(part) {
    wasm.fill(part);
    wasm.call("keys_part");
  },
  // The words of a call of spread; the hash named all stands for all.
  endKeys(words) {
    wasm.fill(words.join("\n"));
    const [[keys, ...buckets], ...names] = cells(wasm.call("keys_end"));
    return { keys, buckets: buckets.filter(Boolean), names: names.flat() };
  },
  measureKeys: (place) => wasm.call("keys_measure", place),
  rowOfKeys: (place) => cells(wasm.call("keys_row", place)),
  // The table, and the name of the hash that it recommends.
  tableOfKeys: () => wasm.call("keys_table").split(/\n(?=[^\n]*$)/),
});

// The avalanche of a hash.
const ofPicture = (wasm) => ({
  beginPicture(name, bytes) {
    wasm.fill(name);
    wasm.call("avalanche_begin", bytes);
  },
  goOnPicture(keys) {
    const state = wasm.call("avalanche_part", keys).split("\t");
    return { state, points: new Uint8ClampedArray(wasm.view(wasm.exports.avalanche_points(), 4 * state[0] * state[1])) };
  },
});

const ofTexts = (wasm) => ({
  compareTexts(one, other) {
    const [x, y] = [one, other].map((text) => new TextEncoder().encode(text));
    const both = new Uint8Array(x.length + y.length);
    both.set(x);
    both.set(y, x.length);
    wasm.fill(both);
    const [[sentence], places, ...rows] = cells(wasm.call("texts_compare", x.length));
    return { sentence, places: places.filter(Boolean), rows };
  },
});
