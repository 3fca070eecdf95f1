// The page of trdp-view: what the server tells is kept here, and shown by the other files.

import { ask, element, find, headLine } from "./build.js";
import { Ladder } from "./ladder.js";
import { Plots } from "./plot.js";
import { Table } from "./table.js";
import { showTelegram } from "./telegram.js";

const known = { rows: new Map(), sessions: new Map(), rest: { missing: [], faults: [] }, telegrams: {} };
let waiting = null; // what came while the page pauses
let toldUs = 0; // the time of what was told last, and when that came here
let toldAt = 0;
let isFirst = true;

const plots = new Plots();
const ladder = new Ladder((session, index) => showTelegram(`telegram.json?session=${session}&index=${index}`));
const table = new Table(find("rows"), choose);

function now() {
  return known.rest.is_over ? toldUs : toldUs + (performance.now() - toldAt) * 1000;
}

function choose(row) {
  table.mark(row.number);
  plots.choose(row);
  showTelegram(`telegram.json?row=${row.number}`);
}

function apply(told) {
  toldUs = told.now_us;
  toldAt = performance.now();
  if (told.isWhole) {
    known.rows.clear();
    known.sessions.clear();
  }
  told.rows.forEach((row) => known.rows.set(row.number, row));
  told.sessions.forEach((session) => known.sessions.set(session.session, session));
  if (told.numbers) {
    keepOnly(known.rows, told.numbers);
    keepOnly(known.sessions, told.ids);
  }
  known.rest = told;
  if (told.rows.some((row) => row.number === plots.number)) {
    plots.update();
  }
  show();
}

function keepOnly(map, keys) {
  const there = new Set(keys);
  [...map.keys()].filter((key) => !there.has(key)).forEach((key) => map.delete(key));
}

function show() {
  table.show(known.rows, known.rest.missing, known.telegrams, now());
  ladder.show(known.sessions);
  showFaults();
  showState();
}

function showState() {
  const rows = [...known.rows.values()];
  const count = (number, word) => (number ? `${number} ${word}` : "");
  const words = [
    `${rows.length} rows`, count(rows.filter((row) => row.silent).length, "silent"),
    count(known.rest.missing.length, "never seen"), count(rows.filter((row) => row.marks.length).length, "marked"),
    count(known.rest.unread, "not read"), count(known.rest.left_out, "telegrams of too many rows left out"),
    known.rest.is_over ? "the capture has ended" : "", waiting ? "paused" : "",
  ];
  find("state").textContent = words.filter(Boolean).join(", ");
  find("state").classList.remove("bad");
}

function showFaults() {
  find("faults-part").hidden = known.rest.faults.length === 0;
  find("faults").tBodies[0].replaceChildren(...known.rest.faults.map((fault) => {
    const line = element("tr");
    line.append(...fault.map((it, index) => element("td", String(it), index === 3 ? "number" : "")));
    return line;
  }));
}

// Puts together what came while the page pauses, so that it never takes more than the rows do.
function wait(told) {
  if (told.isWhole) {
    waiting = told;
    return;
  }
  const [rows, numbers] = merge("rows", "number", "numbers", told);
  const [sessions, ids] = merge("sessions", "session", "ids", told);
  waiting = { ...waiting, ...told, isWhole: waiting.isWhole, rows, numbers, sessions, ids };
}

// What waits of a list and what is told, the later of each key; and all keys that are there, if that was told.
function merge(list, name, keys, told) {
  const found = new Map([...waiting[list], ...told[list]].map((it) => [it[name], it]));
  const there = told[keys] || (waiting[keys] && [...new Set([...waiting[keys], ...told[list].map((it) => it[name])])]);
  if (there) {
    keepOnly(found, there);
  }
  return [[...found.values()], there];
}

function pause() {
  if (waiting) {
    const told = waiting;
    waiting = null;
    apply(told);
  } else {
    waiting = { ...known.rest, isWhole: false, rows: [], sessions: [], now_us: now() };
    showState();
  }
  find("pause").setAttribute("aria-pressed", String(waiting !== null));
}

function setTheme(name) {
  document.documentElement.dataset.theme = name;
  find("theme").textContent = name === "dark" ? "Light" : "Dark";
  plots.redraw();
}

function listen() {
  const events = new EventSource("events");
  events.addEventListener("open", () => {
    isFirst = true;
  });
  events.addEventListener("message", (event) => {
    const told = { ...JSON.parse(event.data), isWhole: isFirst };
    isFirst = false;
    if (waiting) {
      wait(told);
    } else {
      apply(told);
    }
  });
  events.addEventListener("error", () => {
    find("state").textContent = "trdp-view has ended, or cannot be reached";
    find("state").classList.add("bad");
  });
}

async function begin() {
  const told = await ask("begin.json");
  known.telegrams = told.telegrams;
  find("title").textContent = `trdp-view: ${told.title}`;
  document.title = `trdp-view: ${told.title}`;
  headLine(find("faults"), [["From", ""], ["To", ""], ["Fault", ""], ["Count", "number"]]);
  find("filter").addEventListener("input", (event) => table.filter(event.target.value));
  find("pause").addEventListener("click", pause);
  find("latest").addEventListener("click", () => showTelegram(`telegram.json?row=${plots.number}`));
  find("close").addEventListener("click", () => {
    table.mark(null);
    plots.close();
  });
  find("theme").addEventListener("click", () => {
    setTheme(document.documentElement.dataset.theme === "dark" ? "light" : "dark");
  });
  setTheme(matchMedia("(prefers-color-scheme: dark)").matches ? "dark" : "light");
  setInterval(() => waiting || known.rest.is_over || show(), 500);
  listen();
}

begin();
