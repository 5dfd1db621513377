// The timeline as a page of its own: its journal, world and words are in the page.
import { sceneOf, stepsOf } from "./scene.js";
import { View } from "./view.js";

const { journal, world, steps, states, words } = JSON.parse(document.getElementById("data").textContent);
new View().show(sceneOf(journal, world, stepsOf(journal, world, steps), states), words);
