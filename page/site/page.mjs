// The page: each area begins when the worker is ready. Before that the page is text.
import { avalanche, offer } from "./avalanche.mjs";
import { keys } from "./keys.mjs";
import { ready } from "./parts.mjs";
import * as texts from "./texts.mjs";
import * as text from "./text.mjs";

try {
  offer(await ready);
  for (const each of [keys, avalanche, text.text, texts.texts]) each.enable();
  text.begin();
  texts.begin();
} catch (error) {
  const start = document.getElementById("start");
  start.textContent = `The forms below cannot be used. ${error.message}`;
  start.hidden = false;
}
