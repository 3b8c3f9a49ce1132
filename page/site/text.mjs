// All hashes of one text or file.
import { Area, copy, headOf, make, nameOf, rowOf, sizeOf, sourceOf } from "./parts.mjs";

export const text = new Area("text", ({ rows }) => {
  if (!rows) return;
  text.say(`All hashes of ${nameOf(read)}, ${sizeOf(read)}.`);
  text.find("table").replaceChildren(headOf(["Hash", "Bits", "Decimal", "Hexadecimal", "Under"]), make("tbody", {}, ...rows.map(line)));
  text.result.hidden = false;
});
let read;

const source = sourceOf(text.form, begin);
for (const name of ["seed", "second", "key", "poly61"]) text.form.elements[name].addEventListener("input", begin);
text.form.addEventListener("submit", (event) => event.preventDefault());

export function begin() {
  read = source();
  const seeds = ["seed", "second", "key", "poly61"].map((name) => text.form.elements[name].value);
  text.begin(read instanceof Blob ? `Hashing ${nameOf(read)}, ${sizeOf(read)} …` : "Hashing …", { source: read, seeds });
}

function copier(name, number, form) {
  const button = make("button", { type: "button", class: "number", "aria-label": `Copy ${name} in ${form}, ${number}` }, number);
  button.addEventListener("click", () => copy(number, text, `${name} in ${form}`));
  return button;
}

function line([name, bits, under, decimal, hexadecimal]) {
  if (!decimal) return rowOf([name, bits, { inside: `needs ${under}`, colspan: 3, class: "hint" }]);
  return rowOf([name, bits, copier(name, decimal, "decimal"), hexadecimal ? copier(name, hexadecimal, "hexadecimal") : "", under]);
}
