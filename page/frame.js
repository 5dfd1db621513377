// The timeline in a frame of the page. The page hands the words to it, and a port on which it hears the worker.
import { Receiver } from "./pieces.js";
import { View } from "./view.js";

const view = new View(line => parent.postMessage({ picked: line }, location.origin));
let words;

function listen(port) {
  const receiver = new Receiver();
  port.addEventListener("message", ({ data }) => {
    const parts = receiver.take(data);
    if (parts) view.show(parts, words);
    if (data.kind === "stepped") view.step(data);
    if (parts) requestAnimationFrame(() => parent.postMessage({ isDrawn: true, number: data.number }, location.origin));
  });
  port.start();
}

addEventListener("message", ({ source, origin, data }) => {
  if (source !== parent || origin !== location.origin) return;
  words = data.words ?? words;
  if (data.port) listen(data.port);
  if (data.moment !== undefined) view.follow(data.moment);
  if (data.world) view.showWorld(data.world.name, data.world.lines);
  if (data.isStepping !== undefined) view.leaveWorld(data.isStepping);
});
parent.postMessage({ isReady: true }, location.origin);
