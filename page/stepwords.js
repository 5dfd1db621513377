// The moves of the panel that steps through a run, and its words.

// The moves of the keys, of which each goes back with Shift.
export const MOVES = {
  s: ["step", "back"], n: ["next", "reverse-next"], f: ["finish", "reverse-finish"], h: ["handler", "reverse-handler"],
  l: ["line", "reverse-line"], c: ["crossing", "reverse-crossing"],
};
const TIERS = {
  1: "some results aren't told", 2: "only integers are told", 3: "no values are told", 4: "nothing is told of it",
};
const NOWHERE = {
  until: "this line isn't begun there", handler: "there is no further handler",
  crossing: "there is no further crossing",
};

export const isBackwards = move => move === "back" || move.startsWith("reverse");
export const counted = (count, noun) => `${count.toLocaleString("en")} ${noun}${count === 1 ? "" : "s"}`;

// What is less than told whole of a file.
export const toldOf = ({ tier }) => TIERS[tier];

// That a move leads nowhere.
export function nowhere(move) {
  return NOWHERE[move.replace("reverse-", "")]
    ?? (isBackwards(move) ? "the script did nothing before this" : "the script does nothing after this");
}
