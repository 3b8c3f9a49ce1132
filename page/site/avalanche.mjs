// The avalanche of a hash, drawn as it is counted.
import { Area, make } from "./parts.mjs";

export const avalanche = new Area("avalanche", ({ picture, whole }) => {
  if (picture) draw(picture);
  if (whole) avalanche.say(`Drawn: ${shares()}`);
});
const canvas = avalanche.find("canvas");
let name, state;

avalanche.form.addEventListener("submit", (event) => {
  event.preventDefault();
  name = avalanche.form.elements.name.value;
  avalanche.begin(`Flipping the bits of random keys under ${name} …`, { name, bytes: Number(avalanche.form.elements.bytes.value) });
});

export function offer(names) {
  avalanche.form.elements.name.replaceChildren(...names.map((each) => make("option", each === "xxh3" ? { selected: "" } : {}, each)));
}

function shares() {
  const [bits, rows, keys, least, mean, most] = state;
  return `${name}, ${bits} bits, keys of ${rows / 8} bytes: a bit of the hash changes for ${least} % of ${keys} keys at the least, ` +
    `${mean} % on average, and ${most} % at the most.`;
}

function draw(picture) {
  state = picture.state;
  const [width, height] = state.map(Number);
  if (canvas.width !== width || canvas.height !== height) Object.assign(canvas, { width, height });
  canvas.getContext("2d").putImageData(new ImageData(picture.points, width, height), 0, 0);
  canvas.setAttribute("aria-label", `The avalanche of ${shares()}`);
  avalanche.result.hidden = false;
}
