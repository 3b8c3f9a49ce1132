// How hashes spread keys, and which to take.
import { Area, copy, headOf, make, nameOf, rowOf, sizeOf, sourceOf } from "./parts.mjs";

export const keys = new Area("keys", (answer) => {
  if (answer.head) begun(answer.head);
  if (answer.hashing) keys.say(`Hashing ${head.keys} different keys …`);
  if (answer.row) add(answer.row);
  if (answer.table) end(answer.table);
});
const histograms = new Map();
let head, times, body, printed;

const source = sourceOf(keys.form, (what) => what === "file" && begin());
keys.form.addEventListener("submit", (event) => (event.preventDefault(), begin()));
keys.form.elements.example.addEventListener("click", () => {
  const { text, file } = keys.form.elements;
  file.value = "";
  text.value = Array.from({ length: 4096 }, (_, number) => `item${String(number).padStart(4, "0")}`).join("\n");
  begin();
});
keys.find("[name=copy]").addEventListener("click", () => copy(printed, keys, "the table"));

function begin() {
  const read = source();
  const { buckets, names, times: ticked } = keys.form.elements;
  times = ticked.checked;
  const words = [...(buckets.value.trim() ? [`--buckets=${buckets.value.trim()}`] : []), ...(times ? [] : ["--no-times"]), "--"];
  words.push(...names.value.split(/\s+/).filter(Boolean));
  keys.begin(`Reading ${nameOf(read)}, ${sizeOf(read)} …`, { source: read, words, times });
}

function begun(of) {
  head = of;
  histograms.clear();
  const groups = head.buckets.map((size) => ({ inside: `in ${size} bucket${size === "1" ? "" : "s"}`, colspan: 4 }));
  const columns = head.buckets.flatMap(() => ["Fullest", "Empty", "Squares", "Evenness"]);
  const first = { inside: `${head.keys} key${head.keys === "1" ? "" : "s"}`, colspan: 4 };
  body = make("tbody");
  keys.find("table").replaceChildren(
    headOf([first, ...groups, ...(times ? [""] : [])], ["Hash", "Bits", "Equal", "by chance", ...columns, ...(times ? ["ns"] : [])]),
    body,
  );
  keys.find(".charts").replaceChildren();
  keys.find(".histogram").hidden = true;
  keys.find(".advice").textContent = "";
  keys.result.hidden = false;
}

// A verdict in words, with a mark: no colour alone.
const marks = { "as chance": "✓", worse: "✗", "more even": "≈" };
const verdictOf = (verdict) => ({ inside: `${marks[verdict]} ${verdict}`, class: verdict.replace(" ", "-") });

function add([[name, bits, equal, ...numbers], [chance, ...verdicts], ...bars]) {
  histograms.set(name, bars);
  const shower = make("button", { type: "button", class: "name", "aria-pressed": "false" }, name);
  shower.addEventListener("click", () => show(name));
  const spreads = verdicts.flatMap((verdict, group) => [...numbers.slice(3 * group, 3 * group + 3), verdictOf(verdict)]);
  const row = rowOf([shower, bits, equal, chance, ...spreads, ...numbers.slice(3 * verdicts.length)]);
  row.dataset.name = name;
  body.append(row);
}

// The table as text, and the rows of chance out of it; then the advice.
function end([lines, best]) {
  printed = `${lines}\n`;
  keys.find("pre").textContent = printed;
  for (const line of lines.split("\n").filter((line) => line.startsWith("by chance"))) {
    const [bits, equal, ...numbers] = line.slice("by chance".length).trim().split(/\s+/);
    const spreads = head.buckets.flatMap((_, group) => [...numbers.slice(3 * group, 3 * group + 3), ""]);
    body.append(rowOf(["by chance", bits, "", equal, ...spreads, ...(times ? [""] : [])]));
    body.lastChild.classList.add("chance");
  }
  const advice = lines.split("\n").at(-1);
  keys.find(".advice").textContent = /^(Take|None|Too few) /.test(advice) ? advice : "No times were measured, so no hash is recommended.";
  for (const row of body.children) row.classList.toggle("best", row.dataset.name === best);
  keys.say(`Done: ${body.querySelectorAll("button").length} hashes of ${head.keys} different keys.`);
  show(best || histograms.keys().next().value);
}

function show(name) {
  for (const button of body.querySelectorAll("button")) button.setAttribute("aria-pressed", button.textContent === name);
  keys.find(".histogram").hidden = false;
  keys.find(".histogram figcaption").textContent = `${name}: how many buckets have how many keys, and how many by chance`;
  const charts = [];
  for (const [what, number, chance] of histograms.get(name)) {
    if (what === "buckets") charts.push([number]);
    else charts.at(-1).push([what, number, chance]);
  }
  keys.find(".charts").replaceChildren(...charts.map(([size, ...bars]) => chart(size, bars)));
}

// Bars of what is found, each with a mark where chance has it; the numbers stand beside them.
function chart(size, bars) {
  const most = Math.max(...bars.flatMap(([, found, chance]) => [Number(found), Number(chance)]), 1);
  const share = (number) => `${(100 * number) / most}%`;
  const rows = bars.map(([what, found, chance]) => {
    const bar = make("span", { class: "bar", "aria-hidden": "true" }, make("span", { class: "found" }), make("span", { class: "wanted" }));
    bar.firstChild.style.width = share(found);
    bar.lastChild.style.left = share(chance);
    return rowOf([what, { inside: bar, class: "bars" }, found, chance]);
  });
  return make("table", { class: "chart" }, make("caption", {}, `In ${size} buckets`),
    headOf(["Keys", { inside: "", "aria-hidden": "true" }, "Buckets", "by chance"]), make("tbody", {}, ...rows));
}
