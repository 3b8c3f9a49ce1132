// The work, beside the page. A message { area, turn, work, .. } begins some, and ends what that area of the page began before; the work
// "stop" only ends it. Each answer has the area and the turn. Each work has a module of its own, so its memory goes when it ends.
import { Refusal, load } from "./module.mjs";

// a multiple of 4096
const PART = 1 << 20;
const TIMES = 5;
const KEYS = 64;
const ALL_KEYS = 4096;
const compiled = fetch("hashers_page.wasm").then((answer) => answer.arrayBuffer()).then((bytes) => WebAssembly.compile(bytes));
const turns = new Map();

// Lets messages in: one of them may stop the work.
const pause = () => new Promise((go) => {
  const { port1, port2 } = new MessageChannel();
  port1.onmessage = () => (port1.close(), go());
  port2.postMessage(0);
});

async function readParts(source, job, write) {
  const blob = source instanceof Blob ? source : new Blob([source]);
  for (let at = 0; at < blob.size; at += PART) {
    const part = await blob.slice(at, at + PART).arrayBuffer();
    if (job.isOver()) return false;
    write(part);
    job.tell({ done: Math.min(at + PART, blob.size), all: blob.size });
  }
  return true;
}

const works = {
  async text(job, { source, seeds }) {
    const module = await job.module();
    const rows = module.beginText(seeds);
    if (!(await readParts(source, job, module.writeText))) return;
    const hashes = module.endText();
    job.tell({ rows: rows.map((row, place) => [...row, ...hashes[place]]) });
  },
  async keys(job, { source, words, times }) {
    const module = await job.module();
    module.beginKeys();
    if (!(await readParts(source, job, module.writeKeys))) return;
    const { names, ...head } = module.endKeys(words);
    job.tell({ head });
    const places = [...names.keys()];
    const measured = Array(times ? TIMES : 0).fill(places).flat().map((place) => () => module.measureKeys(place));
    const steps = [...measured, ...places.map((place) => () => job.tell({ row: module.rowOfKeys(place) }))];
    for (const [done, step] of steps.entries()) {
      job.tell({ done, all: steps.length, hashing: true });
      await pause();
      if (job.isOver()) return;
      step();
    }
    job.tell({ table: module.tableOfKeys() });
  },
  async avalanche(job, { name, bytes }) {
    const module = await job.module();
    module.beginPicture(name, bytes);
    for (let done = 0; done < ALL_KEYS; done += KEYS) {
      await pause();
      if (job.isOver()) return;
      job.tell({ picture: module.goOnPicture(KEYS), done: done + KEYS, all: ALL_KEYS });
    }
    job.tell({ whole: true });
  },
  async texts(job, { one, other }) {
    const module = await job.module();
    job.tell({ compared: module.compareTexts(one, other) });
  },
  async stop() {},
};

// What failed, in a sentence.
function sentence(error) {
  if (error instanceof Refusal) return error.message;
  if (error instanceof DOMException) return `The file cannot be read: ${error.message}`;
  if (error instanceof WebAssembly.RuntimeError) return "The browser stopped the work, perhaps because it ran out of memory.";
  return `The work failed: ${error.message}`;
}

addEventListener("message", async ({ data }) => {
  const { area, turn, work } = data;
  turns.set(area, turn);
  const job = {
    isOver: () => turns.get(area) !== turn,
    tell: (what) => job.isOver() || postMessage({ area, turn, ...what }),
    module: async () => load(await compiled),
  };
  try {
    await works[work](job, data);
    job.tell({ ended: true });
  } catch (error) {
    job.tell({ fault: sentence(error), ended: true });
  }
});

compiled.then(load).then((module) => postMessage({ names: module.names() }), (error) => postMessage({ unready: sentence(error) }));
