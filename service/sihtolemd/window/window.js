"use strict";
// The window on the service: it reads how all stands once, and then follows the events. What it draws follows from `world` alone.

const KINDS = new Set(["c", "p", "r", "cr"]);
const OPTIONS = new Set(["tries", "undo", "refuse", "undorefuse"]);
// The height of a step with its gap, that of a row beside it, and the width of the gutter for arcs; window.css has the same.
const LANE = 26, ROW = 8, GUTTER = 84;
// A drawing begins so many milliseconds behind the last one at least, and four times as many as that took.
const BETWEEN = 60;
const world = { active: new Map(), ended: [], isEndedDrawn: false, queued: 0, event: 0, effects: 0, state: ["", "connecting"], chosen: "" };
const element = (id) => document.getElementById(id);
const escaped = (words) => String(words).replace(/[&<>"']/g, (sign) => `&#${sign.charCodeAt(0)};`);

// Process texts. A block is its steps and the alternatives behind them, and as many lanes as these take.

function blockOf(words) {
  const block = { steps: [], alternatives: [], lanes: 1 };
  while (KINDS.has(words[0])) {
    const [kind, name, operation, key, amount] = words.splice(0, 5);
    while (OPTIONS.has(words[0])) words.splice(0, 2);
    block.steps.push({ name, told: [kind, name, operation, key, amount].join(" ") });
  }
  if (words[0] === "choose") {
    do {
      words.shift();
      block.alternatives.push(blockOf(words));
    } while (words[0] === "or");
    words.shift();
    block.lanes = block.alternatives.reduce((sum, alternative) => sum + alternative.lanes, 0);
  }
  return block;
}

const blocks = new Map();

function blockOfText(text) {
  if (!blocks.has(text)) {
    if (blocks.size > 4096) blocks.clear();
    blocks.set(text, blockOf(text.split(" ").slice(2)));
  }
  return blocks.get(text);
}

// One process.

/** What became of each step last, by its name. */
function statesOf(process) {
  const states = new Map();
  for (const mark of process.way) if (mark.what !== "dropped") states.set(mark.step, mark.what);
  if (process.waits) states.set(process.waits.own_step, "waits");
  if (process.at_work?.step) states.set(process.at_work.step, "work");
  return states;
}

function secondsSince(time) {
  return Math.max(0, Math.round((Date.now() - Date.parse(time)) / 1000));
}

function toldOf(process) {
  if (process.waits) return `waits for ${process.waits.for} (${process.waits.their_step}) by rule ${process.waits.rule}, ${secondsSince(process.waits.since)} s`;
  if (process.at_work) {
    const work = { do: "", undo: "undo ", end: "its end" }[process.at_work.work];
    return `${work}${process.at_work.step || ""}: at work ${secondsSince(process.at_work.since)} s`;
  }
  return "goes on when it is its turn";
}

function drawnBlock(block, states) {
  const steps = block.steps.map((step) =>
    `<span class="step ${states.get(step.name) || ""}" data-step="${escaped(step.name)}" title="${escaped(step.told)}">${escaped(step.name)}</span>`);
  const ways = block.alternatives.map((alternative) => `<span class="way">${drawnBlock(alternative, states)}</span>`);
  return steps.join("") + (ways.length ? `<span class="choice">${ways.join("")}</span>` : "");
}

function drawnRow(process) {
  const age = process.started ? `${secondsSince(process.started)} s` : "";
  return `<span class="name">${escaped(process.name)}</span><span class="age">${age}</span>` +
    `<span class="block">${drawnBlock(blockOfText(process.text), statesOf(process))}</span>` +
    `<span class="told ${process.waits ? "waits" : ""}">${escaped(toldOf(process))}</span>`;
}

// The page. A row is made anew only where it has changed.

const rows = new Map();

function drawRows() {
  for (const [name, row] of rows) {
    if (!world.active.has(name)) {
      row.made.remove();
      rows.delete(name);
    }
  }
  const fresh = document.createDocumentFragment();
  for (const [name, process] of world.active) {
    const text = drawnRow(process);
    if (!rows.has(name)) rows.set(name, { made: freshRow(process, fresh), text: "" });
    const row = rows.get(name);
    if (row.text !== text) row.made.innerHTML = row.text = text;
    row.made.classList.toggle("chosen", world.chosen === name);
  }
  element("active").append(fresh);
}

function freshRow(process, parent) {
  const row = document.createElement("div");
  row.className = "row";
  row.dataset.name = process.name;
  row.style.height = `${blockOfText(process.text).lanes * LANE + ROW}px`;
  parent.append(row);
  return row;
}

/** An arc in the gutter from each process that waits to the one that it waits for. */
function drawArcs() {
  const middles = new Map();
  let y = 0;
  for (const [name, process] of world.active) {
    middles.set(name, y + 14);
    y += blockOfText(process.text).lanes * LANE + ROW;
  }
  const waiting = [...world.active.values()].filter((process) => middles.has(process.waits?.for));
  const arcs = waiting.map((process, at) => {
    const from = middles.get(process.name), to = middles.get(process.waits.for), reach = 12 + (at % 6) * 11;
    return `<path class="arc" marker-end="url(#head)" d="M${GUTTER},${from} C${reach},${from} ${reach},${to} ${GUTTER - 2},${to}"/>` +
      `<text class="rule" x="${GUTTER - 18}" y="${from - 3}">${escaped(process.waits.rule)}</text>`;
  });
  element("arcs").setAttribute("height", y);
  element("arcs_drawn").innerHTML = arcs.join("");
}

function draw() {
  const began = performance.now();
  drawRows();
  drawArcs();
  drawEnded();
  drawNumbers();
  element("idle").hidden = world.active.size > 0;
  const [kind, told] = world.state;
  element("state").className = kind;
  element("state").textContent = told;
  element("active").getBoundingClientRect();
  lastTook = performance.now() - began;
  document.body.dataset.drawn = String(lastTook);
}

function drawNumbers() {
  const processes = [...world.active.values()];
  const numbers = {
    active: processes.length,
    queued: world.queued,
    "at work": processes.filter((process) => process.at_work).length,
    waiting: processes.filter((process) => process.waits).length,
    effects: world.effects,
  };
  element("numbers").innerHTML = Object.entries(numbers).map(([name, count]) => `<div><dt>${name}</dt><dd>${count}</dd></div>`).join("");
}

function endOf(process) {
  if (process.state === "rejected") return ["nothing", "not started"];
  return process.path.length ? ["", process.path.join(" → ")] : ["nothing", "nothing is left"];
}

function drawEnded() {
  if (world.isEndedDrawn) return;
  world.isEndedDrawn = true;
  element("ended").innerHTML = world.ended.map((process) => {
    const [kind, told] = endOf(process);
    return `<li><button data-name="${escaped(process.name)}">${escaped(process.name)}</button> <span class="end ${kind}">${escaped(told)}</span>` +
      `<div class="why">${escaped(process.reasons.join("; "))}</div></li>`;
  }).join("");
}

let isDue = false, lastTook = 0;
function drawSoon() {
  if (isDue) return;
  isDue = true;
  setTimeout(() => {
    isDue = false;
    draw();
  }, Math.max(BETWEEN, 4 * lastTook));
}

// The history of one process.

async function choose(name) {
  world.chosen = name;
  const answer = await call(`/v1/processes/${encodeURIComponent(name)}`);
  if (!answer.ok || world.chosen !== name) return;
  const process = await answer.json(), history = element("history");
  const lines = [[process.submitted, "submitted"], [process.started, "started"]];
  for (const mark of process.way) lines.push([mark.at, `${mark.step} ${mark.what}`]);
  if (process.at_work) lines.push([process.at_work.since, `${process.at_work.work} ${process.at_work.step || ""} at work`]);
  if (process.waits) lines.push([process.waits.since, toldOf(process)]);
  if (process.ended) lines.push([process.ended, endOf(process)[1]]);
  const told = lines.filter(([time, line]) => time || !["submitted", "started"].includes(line))
    .map(([time, line]) => `<li><time>${time ? escaped(time.slice(11, 23)) : "before this start"}</time>${escaped(line)}</li>`);
  history.innerHTML = `<button class="close" data-close="1">close</button><h2>${escaped(name)} <small>${escaped(process.state)}` +
    `${process.number ? `, process ${process.number} of files ${process.files}` : ""}</small></h2><ol>${told.join("")}</ol>` +
    `<div class="why">${escaped((process.reasons || []).join("; "))}</div><pre>${escaped(process.text)}</pre>`;
  history.hidden = false;
  drawSoon();
}

document.addEventListener("click", (click) => {
  if (click.target.closest("[data-close]")) {
    world.chosen = "";
    element("history").hidden = true;
    drawSoon();
    return;
  }
  const named = click.target.closest("[data-name]");
  if (named) choose(named.dataset.name);
});

// The service.

function call(path) {
  const token = sessionStorage.getItem("token");
  return fetch(path, { headers: token ? { Authorization: `Bearer ${token}` } : {} });
}

async function readAll() {
  const answer = await call("/v1/processes");
  if (answer.status === 401) {
    element("token").hidden = false;
    throw new Error("a token is wanted");
  }
  if (!answer.ok) throw new Error((await answer.json()).what);
  const told = await answer.json();
  rows.forEach((row) => row.made.remove());
  rows.clear();
  world.active = new Map(told.active.map((process) => [process.name, process]));
  world.ended = told.ended;
  world.isEndedDrawn = false;
  world.queued = told.queued_count;
  world.event = told.event;
  tellWhetherOpen(told.open, `the service waits for ${told.waits_for}`);
  draw();
}

let nextLook = 0;

/** While the service isn't open it is asked again each second: no event tells that it has opened. */
function tellWhetherOpen(isOpen, what) {
  world.state = isOpen ? ["live", "live"] : ["fault", `not open: ${what.replace("the service ", "")}`];
  clearTimeout(nextLook);
  if (!isOpen) nextLook = setTimeout(lookWhetherOpen, 1000);
}

async function lookWhetherOpen() {
  const look = nextLook, answer = await fetch("/ready").catch(() => null);
  if (!answer || look !== nextLook) return;
  tellWhetherOpen(answer.ok, answer.ok ? "" : (await answer.json()).what);
  drawSoon();
}

/** What each event makes of the world. Those of other names change nothing that is drawn. */
const changes = {
  submitted: (event) => {
    world.queued += 1;
    texts.set(event.process, event.text);
  },
  started: (event) => {
    world.queued -= 1;
    const text = texts.get(event.process) || "";
    texts.delete(event.process);
    world.active.set(event.process, { ...event, name: event.process, text, started: event.time, way: [] });
  },
  handed_out: (event, process) => {
    process.at_work = { work: event.work, step: event.step, since: event.time };
    delete process.waits;
  },
  effected: (event, process) => passed(event, process, event.work === "undo" ? "undone" : "done"),
  refused: (event, process) => passed(event, process, "refused"),
  rejected: (event, process) => changes.ended(event, process),
  dropped: (event, process) => passed(event, process, "dropped"),
  ended: (event, process) => {
    if (!world.active.delete(event.process)) world.queued -= 1;
    world.ended.unshift({ ...process, name: event.process, state: event.event, path: event.path, reasons: event.reasons });
    world.ended.length = Math.min(world.ended.length, 100);
    world.isEndedDrawn = false;
  },
  waits: (event) => {
    for (const { process, waits } of event.changed) {
      const found = world.active.get(process);
      if (found) found.waits = waits || undefined;
    }
  },
};
const texts = new Map();

function passed(event, process, what) {
  delete process.at_work;
  if (event.step) process.way.push({ what, step: event.step, at: event.time });
  if (event.event === "effected") world.effects += 1;
}

/** Whether the event can be taken; if not, all has to be read anew. */
function take(event) {
  world.event = event.id;
  if (["lost", "opened", "failed", "files_begun"].includes(event.event)) return false;
  const change = changes[event.event], process = world.active.get(event.process);
  if (!change) return true;
  if (process || ["submitted", "started", "waits", "ended", "rejected"].includes(event.event)) change(event, process || {});
  if (world.chosen && world.chosen === event.process) choose(world.chosen);
  drawSoon();
  return true;
}

async function follow() {
  const answer = await call(`/v1/events?after=${world.event}`);
  if (!answer.ok) throw new Error((await answer.json()).what);
  const reader = answer.body.pipeThrough(new TextDecoderStream()).getReader();
  let rest = "";
  for (;;) {
    const { value, done } = await reader.read();
    if (done) return;
    const parts = (rest + value).split("\n\n");
    rest = parts.pop();
    for (const part of parts) {
      const line = part.split("\n").find((line) => line.startsWith("data: "));
      if (line && !take(JSON.parse(line.slice(6)))) await readAll();
    }
  }
}

async function live() {
  for (;;) {
    try {
      await readAll();
      await follow();
      world.state = ["fault", "the service has gone; trying again"];
    } catch (error) {
      world.state = ["fault", String(error.message || error)];
    }
    drawSoon();
    await new Promise((done) => setTimeout(done, 1000));
  }
}

element("token").addEventListener("submit", (event) => {
  event.preventDefault();
  sessionStorage.setItem("token", new FormData(event.target).get("token"));
  event.target.hidden = true;
});
// Ages go on by themselves.
setInterval(drawSoon, 1000);
live();
