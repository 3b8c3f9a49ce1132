// node test.mjs CASES SPREAD MODULE..: holds each module against the cases of cases.py, values from outside, and the program spread.
import { execFileSync } from "node:child_process";
import { webcrypto } from "node:crypto";
import { readFileSync } from "node:fs";
import { Refusal, load } from "./site/module.mjs";

globalThis.crypto ??= webcrypto;
const [cases, spread, ...paths] = process.argv.slice(2);
const lines = readFileSync(cases, "utf8").trimEnd().split("\n").map((line) => JSON.parse(line));
let passed = 0, failed = 0, path;

function is(what, wanted, found) {
  const right = JSON.stringify(wanted) === JSON.stringify(found);
  right ? passed++ : failed++;
  if (right || failed > 8) return;
  console.log(`FAILED: ${path}: ${what}\n-- wanted\n${JSON.stringify(wanted)}\n-- found\n${JSON.stringify(found)}`);
}

// The message of the error of that kind that the call throws; nothing where it throws none.
function thrown(kind, call) {
  try {
    call();
  } catch (error) {
    return error instanceof kind ? error.message : `another error: ${error}`;
  }
}

function hashesOf(module, seeds, ...parts) {
  const rows = module.beginText(seeds);
  parts.forEach((part) => module.writeText(part));
  const answers = module.endText();
  return Object.fromEntries(rows.map(([name], place) => [name, answers[place]]));
}

function randomTexts(module) {
  for (const { text, seeds, hashes } of lines.filter((line) => line.text !== undefined)) {
    const found = hashesOf(module, seeds, Buffer.from(text, "hex"));
    for (const [name, wanted] of Object.entries(hashes)) {
      is(`${name} of ${text}, under ${seeds}`, wanted, found[name][0]);
      is(`${name} in hexadecimal`, wanted, BigInt(`0x${found[name][1]}`).toString());
    }
  }
}

// The bytes of a text as a buffer of their own, a text, and in parts; other parts are refused, and change nothing.
function parts(module) {
  const text = Uint8Array.of(97, 0, 255);
  const wanted = hashesOf(module, [], text);
  is("an ArrayBuffer", wanted, hashesOf(module, [], text.buffer));
  is("a text", hashesOf(module, [], Buffer.from("aé", "utf8")), hashesOf(module, [], "aé"));
  const long = Buffer.alloc(5 * 4096 + 7, "some bytes");
  is("in parts", hashesOf(module, [], long), hashesOf(module, [], long.subarray(0, 8192), long.subarray(8192)));
  for (const other of [[97], [], 97, null, undefined, {}, new Uint16Array([97, 0x1061]), new Int8Array(1), new DataView(text.buffer)]) {
    const said = thrown(TypeError, () => module.writeText(other));
    is(`a part that is no bytes: ${other}`, "a part is a text, a Uint8Array or an ArrayBuffer", said);
  }
}

// Those of vectors.txt, each from its seed or its key.
function valuesFromOutside(module) {
  const vectors = readFileSync(new URL("../vectors.txt", import.meta.url), "utf8").trimEnd().split("\n");
  for (const line of vectors.filter((line) => !line.startsWith("#"))) {
    const [name, start, text, wanted] = line.split(" ");
    const seed = start === "-" ? "" : `0x${start}`;
    const seeds = name === "poly61" ? ["", "", "", seed] : start.length === 32 ? ["", "", start] : [seed];
    is(line, BigInt(`0x${wanted}`).toString(), hashesOf(module, seeds, Buffer.from(text, "hex"))[name][0]);
  }
}

function badSeeds(module) {
  const said = (...seeds) => thrown(Refusal, () => module.beginText(seeds));
  for (const seed of ["-1", "1.5", "ten", "0x", "0xg", "18446744073709551616", "0x10000000000000000", "+1", "1 2"]) {
    is("no seed", `The seed must be a whole number below 2^64, such as 42 or 0x2a, not “${seed}”.`, said(seed));
  }
  is("no second seed", "The second seed must be a whole number below 2^64, such as 42 or 0x2a, not “x”.", said("1", "x"));
  for (const key of ["00", "0".repeat(31), "0".repeat(33), `+${"0".repeat(31)}`, "g".repeat(32)]) {
    is("no key", `SipHash’s key must be 16 bytes, as 32 hexadecimal digits, not “${key}”.`, said("", "", key));
  }
  is("no key of poly61", "The key of poly61 must be a whole number below 2^64, such as 42 or 0x2a, not “-”.", said("", "", "", "-"));
  const great = hashesOf(module, [" 4294967296 "], "a");
  is("a seed too great for two", ["", "", "", ""], [...great.xxh32, ...great.murmur3_32]);
  is("and for no other", true, Object.values(great).filter(([decimal]) => decimal === "").length === 3);
}

function spreadOf(module, text, words, cut = text.length) {
  module.beginKeys();
  for (let at = 0; at < text.length; at += cut) module.writeKeys(text.subarray(at, at + cut));
  const { names, ...head } = module.endKeys(words);
  if (!words.includes("--no-times")) names.forEach((_, place) => module.measureKeys(place));
  const rows = names.map((_, place) => module.rowOfKeys(place));
  const [table, best] = module.tableOfKeys();
  return { ...head, rows, table: `${table}\n`, best };
}

const items = Buffer.from(Array.from({ length: 4096 }, (_, number) => `item${String(number).padStart(4, "0")}\n`).join(""));
const keySets = {
  items,
  "items, each twice": Buffer.concat([items, items]),
  "one key": Buffer.from("key"),
  "empty lines": Buffer.from("\n\na\n\nb"),
  "ends of two bytes": Buffer.from("a\r\nb\r\nb\nc"),
  "bytes that are no text": Buffer.from(lines.slice(0, 40).map((line) => line.text ?? "").join(""), "hex"),
};

// The table is that of spread, byte by byte.
function tables(module) {
  const buckets = [[], ["--buckets=1"], ["--buckets=7"], ["-b", "4096"], ["-b5000"]];
  for (const [what, text] of Object.entries(keySets)) {
    for (const [turn, words] of buckets.entries()) {
      const names = [[], module.names(), ["lookup3", "null", "elf"]][turn % 3];
      const wanted = execFileSync(spread, ["--no-times", ...words, ...names], { input: text, encoding: "utf8" });
      const asked = ["--no-times", ...words, ...(names.length > 20 ? ["all"] : names)];
      is(`the table of ${what}, ${words}`, wanted, spreadOf(module, text, asked, [text.length, 1, 100, 4096, 7][turn]).table);
    }
  }
}

// A histogram has as many buckets and keys as there are, and those that the hashes of the keys fall into.
function histograms(module) {
  const hashes = items.toString().trimEnd().split("\n").map((line) => hashesOf(module, [], line));
  for (const [name, size] of [["fnv1a64", ""], ["loselose", ""], ["null", "9"], ["sdbm", "100"], ["xxh3", "5"], ["djb2", "100000"]]) {
    const { rows } = spreadOf(module, items, ["--no-times", ...(size ? [`-b${size}`] : []), name]);
    const [, , ...bars] = rows[0];
    for (const m of size ? [size] : ["4096", "4097"]) {
      const own = bars.slice(bars.findIndex((bar) => bar[1] === m && bar[0] === "buckets") + 1);
      const chart = own.slice(0, own.findIndex((bar) => bar[0] === "buckets") >>> 0);
      const wanted = barsOf(hashes.map((all) => all[name][0]), Number(m), chart.map(([what]) => what));
      is(`${name}: the bars of ${m} buckets`, wanted, chart.map(([, found]) => Number(found)));
      const chance = chart.reduce((sum, bar) => sum + Number(bar[2]), 0);
      is(`${name}: by chance, of ${m} buckets`, true, Math.abs(chance - m) <= 0.1 * chart.length);
    }
  }
}

function barsOf(hashes, buckets, ranges) {
  const counts = new Array(buckets).fill(0);
  for (const hash of hashes) counts[BigInt(hash) % BigInt(buckets)]++;
  return ranges.map((range) => {
    const [least, most] = range.match(/\d+/g).map(Number);
    if (range.startsWith("below")) return counts.filter((count) => count < least).length;
    return counts.filter((count) => count >= least && (range.endsWith("+") || count <= (most ?? least))).length;
  });
}

// The last line is that of spread where no times tell: of few keys, of one hash, and where none is advised.
function adviceOfSpread(module) {
  const numbers = (count) => Buffer.from(Array.from({ length: count }, (_, number) => `${number}\n`).join(""));
  const lastOf = (table) => table.trimEnd().split("\n").at(-1);
  for (const [text, ...names] of [[Buffer.from("user0@example.org\nuser1@example.org\n")], [numbers(999), "xxh3"], [numbers(1000), "xxh3"],
    [numbers(1000), "passthrough", "bricolage", "fxhash"], [items, "xxh64"], [items, "null", "loselose"]]) {
    const wanted = execFileSync(spread, names, { input: text, encoding: "utf8" });
    is(`the advice for ${text.length} bytes, ${names}`, lastOf(wanted), lastOf(spreadOf(module, text, names).table));
  }
}

// The advice goes by the rule that man/spread.1 has, over the rows.
const RANDOM = ["spooky", "spooky_v1", "xxh32", "xxh64", "murmur3_32", "murmur3", "siphash13", "siphash24", "xxh3"];
function advice(module) {
  const { keys, buckets, rows, table, best } = spreadOf(module, items, []);
  const n = Number(keys);
  const isEven = (squares, m) => Math.abs(squares - (n + n * (n - 1) / m)) <= 3 * Math.sqrt(2 * n * (n - 1) * (m - 1)) / m;
  const even = rows.filter(([[, , , , , first, , , second]]) => isEven(Number(first), buckets[0]) && isEven(Number(second), buckets[1]));
  const called = rows.filter(([, verdicts]) => verdicts.slice(1).every((verdict) => verdict === "as chance"));
  is("the verdicts", even.map(([[name]]) => name), called.map(([[name]]) => name));
  const good = even.filter(([[name, , equal]]) => RANDOM.includes(name) && equal === "0");
  const least = Math.min(...good.map(([cells]) => Number(cells.at(-1))));
  is("the times", true, rows.every(([cells]) => cells.length === 10 && Number(cells.at(-1)) > 0));
  is("the hash that is recommended is the fastest of these", least, Number(good.find(([[name]]) => name === best)?.[0].at(-1)));
  const named = `Take ${best} for these keys: the fastest that looks random and spreads them as chance does.`;
  is("and named", named, table.trimEnd().split("\n").at(-1));
  const none = spreadOf(module, items, ["null", "loselose"]);
  is("none is recommended", ["", "None of these looks random and spreads these keys as chance does."], [none.best, none.table.trimEnd().split("\n").at(-1)]);
}

function badKeys(module) {
  const said = (text, ...words) => thrown(Refusal, () => spreadOf(module, Buffer.from(text), words));
  is("no keys", "There are no keys. Enter one per line.", said(""));
  for (const number of ["0", "ten", "-1", "", "4294967296", "1".repeat(40)]) {
    is("no number", "The number of buckets must be a whole number from 1 to 4294967295.", said("a", `--buckets=${number}`));
  }
  is("no hash", "There is no hash “md5”.", said("a", "fnv1a64", "md5"));
  is("no memory", "The browser has no more memory for this page.", said("a", "--buckets=4000000000"));
}

// Over two keys a bit changes for none, one or both: three colours.
function avalanches(module) {
  const colours = [[8, 48, 107, 255], [255, 255, 255, 255], [166, 54, 3, 255]];
  for (const { avalanche, bytes, bits, counts } of lines.filter((line) => line.avalanche)) {
    if (!bits) {
      is("no bits", `${avalanche} has no bits that could change.`, thrown(Refusal, () => module.beginPicture(avalanche, bytes)));
      continue;
    }
    module.beginPicture(avalanche, bytes);
    module.goOnPicture(1);
    const { state, points } = module.goOnPicture(1);
    const shares = [Math.min(...counts), counts.reduce((sum, count) => sum + count) / counts.length, Math.max(...counts)];
    is(`${avalanche}: the size`, [bits, 8 * bytes, 2].map(String), state.slice(0, 3));
    is(`${avalanche}: the shares`, true, state.slice(3).every((share, at) => Math.abs(share - 50 * shares[at]) < 0.051));
    is(`${avalanche}: the picture`, counts.flatMap((count) => colours[count]), [...points]);
  }
  module.beginPicture("xxh3", 64);
  is("the greatest picture, for which memory grows", 4 * 64 * 512, module.goOnPicture(1).points.length);
  is("no such hash", "There is no hash “md5”.", thrown(Refusal, () => module.beginPicture("md5", 8)));
  for (const bytes of [0, 65]) {
    is("no such key", "A key has 1 to 64 bytes here.", thrown(Refusal, () => module.beginPicture("xxh3", bytes)));
  }
}

// Where two texts of one length differ: the first place, the one behind the last, how many bits are between, and which bits of a byte.
function stretch(x, y) {
  const changes = [...x].map((byte, at) => byte ^ y[at]);
  const first = changes.findIndex((change) => change), last = changes.findLastIndex((change) => change);
  const before = 31 - Math.clz32(changes[first] & -changes[first]), behind = Math.clz32(changes[last]) - 24;
  return { first, end: last + 1, bits: 8 * (last + 1 - first) - before - behind, any: changes.reduce((all, change) => all | change) };
}

// Whether they differ in one word of so many bytes, of those that stand behind each other from a place on, as many as are whole.
const inOne = ({ first, end }, size, from, to) =>
  first >= from && end <= to - ((to - from) % size) && first - ((first - from) % size) + size >= end;

// The windows of hashes.txt: whether different texts of n bytes differ only there.
const WINDOWS = {
  "1 byte": ({ first, end }) => end - first === 1,
  "2 bytes": ({ first, end }) => end - first <= 2,
  "3 bytes": ({ first, end }) => end - first <= 3,
  "6 low": ({ first, end, any }) => end - first === 1 || (end - first <= 6 && any < 32),
  "32 bits": ({ bits }) => bits <= 32,
  "fx 8": (it, n) => inOne(it, 8, 0, n) || inOne(it, 4, n - (n % 8), n) || inOne(it, 1, n - (n % 4), n),
  "fx 4": (it, n) => inOne(it, 4, 0, n) || inOne(it, 1, n - (n % 4), n),
  "word 4": (it, n) => inOne(it, 4, 0, n),
  "word 4, end": (it, n) => inOne(it, 4, 0, n) || it.first >= n - (n % 4),
  "last 8": (it, n) => inOne(it, 8, n - (n % 32), n),
  "block 16, end": (it, n) => inOne(it, 16, 0, n) || it.first >= n - (n % 16),
  "up to 8": (it, n) => n <= 8,
  "up to 16": (it, n) => n <= 16,
};
const { windows } = lines.find((line) => line.windows);

// The names that are proved to tell two texts apart; xxh3 also those of 1 to 3 bytes, whatever their lengths.
function apart(one, other) {
  const [x, y] = [one, other].map((text) => Buffer.from(text));
  if (x.equals(y)) return [];
  const few = [x, y].every((text) => text.length > 0 && text.length < 4);
  const only = x.length === y.length ? (window) => WINDOWS[window]?.(stretch(x, y), x.length) : (window) => window === "up to 8" && few;
  return Object.keys(windows).filter((name) => only(windows[name]));
}

const near = [
  ["a", "b", "Both have 1 byte. They differ in one byte, number 0, counted from 0."],
  ["a", "A", "Both have 1 byte. They differ in one byte, number 0, counted from 0."],
  ["ab", "ba", "Both have 2 bytes. They differ in 2 bytes, between number 0 and 1, counted from 0."],
  ["0123456789abcdefXYZ--------------------", "0123456789abcdefZYX--------------------",
    "Both have 39 bytes. They differ in 2 bytes, between number 16 and 18, counted from 0."],
  ["0123456789abcdef0123456789abcdefXYZ-----", "0123456789abcdef0123456789abcdefZ-------",
    "Both have 40 bytes. They differ in 3 bytes, between number 32 and 34, counted from 0."],
  ["----XYZW----", "---XYZW-----", "Both have 12 bytes. They differ in 5 bytes, between number 3 and 7, counted from 0."],
  ["abc", "abcd", "The first has 3 bytes, the second 4 bytes. The longer one begins with the shorter one."],
  ["abc", "xy", "The first has 3 bytes, the second 2 bytes. They differ in 2 bytes, between number 0 and 1, counted from 0."],
  ["", "", "The texts are equal: 0 bytes."],
  ["same", "same", "The texts are equal: 4 bytes."],
  ["the first text, some words", "and another one that has more",
    "The first has 26 bytes, the second 29 bytes. They differ in 23 bytes, between number 0 and 25, counted from 0."],
];

function twoTexts(module) {
  for (const [one, other, sentence] of near) {
    const found = module.compareTexts(one, other);
    is(`${one} and ${other}`, sentence, found.sentence);
    const sure = found.rows.filter(([, law]) => law === "yes");
    is(`what tells ${one} and ${other} apart`, apart(one, other).sort(), sure.map(([name]) => name).sort());
    is(`they are apart: ${one} and ${other}`, [], sure.filter(([, , , a, b]) => a === b).map(([name]) => name));
    is("each has its law", true, sure.every(([, , law]) => law.startsWith("They ")));
    const [x, y] = [one, other].map((text) => hashesOf(module, [], text));
    is("the hashes", found.rows.map(([name]) => [x[name][1], y[name][1]]), found.rows.map(([, , , a, b]) => [a, b]));
  }
  for (let at = 0; at < 600; at++) {
    const one = Array.from({ length: at % 41 }, (_, place) => String.fromCharCode(97 + ((place * at) % 26)));
    const isOther = (place) => place >= at % 37 && place < (at % 37) + (at % 9);
    const other = one.map((letter, place) => (isOther(place) ? String.fromCharCode(65 + ((place + at) % 60)) : letter));
    const sure = module.compareTexts(one.join(""), other.join("")).rows.filter(([, law]) => law === "yes");
    is(`what tells ${one.join("")} and ${other.join("")} apart`, apart(one.join(""), other.join("")).sort(), sure.map(([name]) => name).sort());
    is(`they are apart: ${one.join("")} and ${other.join("")}`, [], sure.filter(([, , , a, b]) => a === b).map(([name]) => name));
  }
  is("the places", ["1: 62 78", "3: none 64"], module.compareTexts("abc", "axcd").places);
  const letters = module.compareTexts("é", "è").sentence;
  is("a letter of two bytes", "Both have 2 bytes. They differ in one byte, number 1, counted from 0.", letters);
}

// The names of hashes.txt that have a kind.
function kinds() {
  const rows = readFileSync(new URL("../hashes.txt", import.meta.url), "utf8").split("\n\n")[1].trim().split("\n");
  return rows.map((row) => row.split(" | ").map((cell) => cell.trim())).filter((cells) => /^[A-Z]/.test(cells[12])).map(([name]) => name);
}

for (path of paths) {
  const module = await load(await WebAssembly.compile(readFileSync(path)));
  const tests = [randomTexts, parts, valuesFromOutside, badSeeds, tables, histograms, adviceOfSpread, advice, badKeys, avalanches, twoTexts];
  tests.forEach((test) => test(module));
  is("the names of hashes.txt", kinds(), module.names());
}
console.log(`${passed} passed, ${failed} failed`);
process.exit(failed ? 1 : 0);
