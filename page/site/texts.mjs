// Where two texts differ, and which hashes are proved to tell them apart.
import { Area, headOf, make, rowOf } from "./parts.mjs";

export const texts = new Area("texts", ({ compared }) => {
  if (!compared) return;
  const { sentence, places, rows } = compared;
  const sure = rows.filter(([, law]) => law === "yes").length;
  texts.say(`${sentence} ${sure} hash${sure === 1 ? " is" : "es are"} proved to tell them apart.`);
  texts.find(".places").textContent = places.length ? `The first places, with the bytes of both: ${places.join(", ")}.` : "";
  const lines = [...rows.filter(([, law]) => law === "yes"), ...rows.filter(([, law]) => law !== "yes")].map(line);
  const head = headOf(["Hash", "For sure", "By the law", "Here the hashes are"]);
  texts.find("table").replaceChildren(head, make("tbody", {}, ...lines));
  texts.result.hidden = false;
});

export function begin() {
  const { one, other } = texts.form.elements;
  if (one.value || other.value) texts.begin("Comparing …", { one: one.value, other: other.value });
}

texts.form.addEventListener("input", begin);

function line([name, law, sentence, one, other]) {
  const verdict = law === "yes" ? { inside: "✓ yes", class: "as-chance" } : "no law applies";
  return rowOf([name, verdict, { inside: sentence, class: "law" }, one === other ? { inside: "✗ equal", class: "worse" } : "different"]);
}
