// What the areas of the page share: the elements of a section, its work in the worker, files that are dropped, cells, and copies.
const worker = new Worker(new URL("worker.mjs", import.meta.url), { type: "module" });
const hearers = new Map();
let turns = 0;

// The names of the hashes, when the worker is ready; a reason why it is not is thrown.
export const ready = new Promise((go, stop) => {
  worker.addEventListener("error", () => stop(new Error("The worker cannot be loaded.")));
  worker.addEventListener("message", ({ data }) => {
    if (data.names) go(data.names);
    else if (data.unready) stop(new Error(data.unready));
    else hearers.get(data.area)?.(data);
  });
});

// An area of the page: a section with a form, a status, and a result. `hear` gets each answer to its work, of the last turn alone.
export class Area {
  constructor(name, hear) {
    this.name = name;
    this.section = document.getElementById(name);
    [this.form, this.result, this.status] = ["form", ".result", ".status"].map((what) => this.find(what));
    [this.progress, this.far, this.stopper] = [".work progress", ".work .far", "[name=stop]"].map((what) => this.find(what));
    this.stopper?.addEventListener("click", () => this.stop());
    hearers.set(name, (answer) => answer.turn === this.turn && this.take(answer, hear));
  }

  find(what) {
    return this.section.querySelector(what);
  }

  enable() {
    this.find("fieldset").disabled = false;
  }

  begin(sentence, data) {
    this.send({ work: this.name, ...data });
    this.busy(true);
    this.say(sentence);
  }

  stop() {
    this.send({ work: "stop" });
    this.busy(false);
    this.say("Stopped.");
  }

  send(data) {
    this.turn = ++turns;
    worker.postMessage({ area: this.name, turn: this.turn, ...data });
  }

  take(answer, hear) {
    if (answer.all && this.progress) this.advance(answer);
    if (answer.fault) {
      this.say(answer.fault, true);
      this.result.hidden = true;
    }
    hear(answer);
    if (answer.ended) this.busy(false);
  }

  busy(is) {
    this.section.setAttribute("aria-busy", is);
    if (!this.stopper) return;
    this.stopper.disabled = !is;
    this.progress.hidden = true;
    this.far.textContent = "";
  }

  advance({ done, all }) {
    Object.assign(this.progress, { hidden: false, max: all, value: done });
    this.far.textContent = `${Math.floor((100 * done) / all)} %`;
  }

  // A text that stands there already is not read out again.
  say(sentence, isFault = false) {
    if (this.status.textContent !== sentence) this.status.textContent = sentence;
    this.status.classList.toggle("fault", isFault);
  }
}

// What a form has: a file, if one was chosen or dropped, or the text. Typing takes the file away.
export function sourceOf(form, changed) {
  const { text, file } = form.elements;
  text.addEventListener("input", () => ((file.value = ""), changed("text")));
  file.addEventListener("change", () => changed("file"));
  form.addEventListener("dragover", () => form.classList.add("over"));
  for (const left of ["dragleave", "drop"]) form.addEventListener(left, () => form.classList.remove("over"));
  form.addEventListener("drop", (event) => {
    if (!event.dataTransfer.files.length) return;
    file.files = event.dataTransfer.files;
    changed("file");
  });
  return () => file.files[0] ?? text.value;
}

export const nameOf = (source) => (source instanceof Blob ? source.name : "the text");

export function sizeOf(source) {
  const bytes = source instanceof Blob ? source.size : new TextEncoder().encode(source).length;
  return `${bytes.toLocaleString("en")} byte${bytes === 1 ? "" : "s"}`;
}

// An element of that tag, with attributes, and texts or elements in it.
export function make(tag, attributes = {}, ...inside) {
  const element = document.createElement(tag);
  for (const [name, value] of Object.entries(attributes)) element.setAttribute(name, value);
  element.append(...inside);
  return element;
}

// A row whose first cell is its head. A cell is a text, an element, or { text or element, and attributes }.
export function rowOf(cells) {
  const row = make("tr");
  cells.forEach((cell, place) => {
    const { inside = cell, ...attributes } = cell?.inside === undefined ? {} : cell;
    row.append(make(place ? "td" : "th", place ? attributes : { scope: "row", ...attributes }, inside));
  });
  return row;
}

// The head of a table: lines of names, each a text or { inside, and attributes }.
export function headOf(...lines) {
  const row = (names) => make("tr", {}, ...names.map((name) => {
    const { inside = name, ...attributes } = name?.inside === undefined ? {} : name;
    return make("th", { scope: attributes.colspan ? "colgroup" : "col", ...attributes }, inside);
  }));
  return make("thead", {}, ...lines.map(row));
}

export async function copy(text, area, what) {
  try {
    await navigator.clipboard.writeText(text);
    area.say(`Copied ${what}.`);
  } catch {
    area.say("This browser does not allow copying. Select the text and copy it yourself.", true);
  }
}

// A file that is dropped beside the fields would take the place of the page.
for (const kind of ["dragover", "drop"]) document.addEventListener(kind, (event) => event.preventDefault());
