/** Reads what the report of `show` tells of the history so far. */
import { Answer } from "./settling.mjs";

const TITLES = ["history", "completion", "ends", "causes", "trace", "serial"];

/** The pairs that conflict with their mode, the names of processes, those that have ended, the steps that stand, and each act's outcome. */
export function readReport(lines) {
  const report = { conflicts: new Map(), names: new Map(), ended: new Set(), paths: new Map(), acts: new Map() };
  const titles = [...TITLES];
  let title = "conflicts";
  for (const line of lines.slice(1)) {
    if (titles.length && line === titles[0]) title = titles.shift();
    else if (title === "conflicts") readConflict(report, line.split(" "));
    else if (title === "history") readEvent(report, line.split(" "));
  }
  return report;
}

const pairOf = (one, other) => [one, other].sort().join(" ");

function readConflict(report, [one, other, mode = "always"]) {
  const pair = pairOf(one, other);
  if (report.conflicts.get(pair) !== "always") report.conflicts.set(pair, mode);
}

function readEvent(report, [kind, place, word]) {
  const [process, step] = place.split(".");
  const number = Number(process);
  if (kind === "start") {
    report.names.set(number, word);
    report.paths.set(number, []);
  } else if (kind === "end") {
    report.ended.add(number);
  } else if (kind === "do") {
    report.acts.set(place, [Answer.DONE, word]);
    report.paths.get(number).push(step);
  } else {
    report.acts.set(place, [Answer.UNDONE, word]);
    const path = report.paths.get(number);
    path.splice(path.indexOf(step), 1);
  }
}

/** Whether two calls, each an operation and a key, conflict. */
export function conflict(conflicts, [one, key], [other, otherKey]) {
  const mode = conflicts.get(pairOf(one, other));
  return mode === "always" || (mode === "key" && key === otherKey);
}

/** The operations that a process text names, as far as it has the form of one. */
export function operationsOf(text) {
  const words = text.split(/\s+/).filter(Boolean);
  const found = [];
  for (let at = 2; at < words.length; ) {
    if (["c", "p", "r", "cr"].includes(words[at])) {
      if (at + 2 < words.length) found.push(words[at + 2]);
      at += 5;
    } else {
      at += ["tries", "undo", "refuse", "undorefuse"].includes(words[at]) ? 2 : 1;
    }
  }
  return found;
}
