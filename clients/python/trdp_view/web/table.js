// The table of telegrams: a line for each row and each telegram that was never seen, what is wrong on top.

import { element, headLine, onChoice, setText } from "./build.js";
import { age, milliseconds, sortable } from "./format.js";

const LATELY_US = 10e6; // how long a mark, a gap and the like count as new
const LATE = 3; // a time between telegrams of so many cycles is shown as late
const COUNTED = ["gaps", "restarts"]; // what a row's state says beside its marks
const PLACES = { bad: 0, warn: 1, good: 2 };

function faults(row) {
  return `${row.gaps} / ${row.repeats} / ${row.restarts}`;
}

function isLate(row) {
  return row.cycle_us && row.worst_us >= LATE * row.cycle_us;
}

function sign(text, before) {
  return text === "" ? "" : before + text;
}

// A column: its title, the two lines of a row's cell, its class, and whether what changes in it is lit up.
const COLUMNS = [
  ["State", (row) => [row.state, ""], "", true],
  ["Telegram", (row) => [`${row.com_id} ${row.type}`, row.name || ""], "", false],
  ["From, to", (row) => [row.source, sign(row.dest, "\u2192 ")], "", false],
  ["Value", (row) => [row.text || "", ""], "value", true],
  ["Count, counter", (row) => [String(row.count), String(row.counter ?? "")], "number", false],
  ["Median, cycle", (row) => [milliseconds(row.median_us), sign(milliseconds(row.cycle_us), "of ")], "number", false],
  ["Worst, jitter", (row) => [milliseconds(row.worst_us), sign(milliseconds(row.jitter_us), "\u00b1 ")], "number",
    false],
  ["Gaps, repeats, restarts", (row) => [faults(row), row.lost ? `${row.lost} missing` : ""], "number faults", true],
  ["Age, bytes/s", (row, now) => [row.count ? age(now - row.latest_us) : "", rate(row)], "number", false],
];
const [AGE, WORST] = [8, 6];

function rate(row) {
  return row.count ? `${row.bytes_per_second.toLocaleString("en")} B/s` : "";
}

export class Table {
  constructor(table, choose) {
    this.body = table.tBodies[0];
    this.choose = choose;
    this.lines = new Map(); // by the number of a row, or the comId of a telegram that was never seen
    this.words = [];
    this.chosen = null;
    headLine(table, COLUMNS.map(([title, , kind]) => [title, kind]));
  }

  // Shows rows as they are now. Those that changed are new objects.
  show(rows, missing, telegrams, now) {
    const wanted = new Map(rows);
    for (const comId of missing) {
      const key = `missing ${comId}`;
      wanted.set(key, this.lines.has(key) ? this.lines.get(key).row : missingRow(comId, telegrams[comId] || {}));
    }
    for (const [key, line] of this.lines) {
      if (!wanted.has(key)) {
        line.tr.remove();
        this.lines.delete(key);
      }
    }
    for (const [key, row] of wanted) {
      this.showRow(key, row, now);
    }
    this.order();
  }

  showRow(key, row, now) {
    const line = this.lines.get(key) || this.newLine(key);
    const state = stateOf(row, line, now);
    if (line.row === row && line.state === state.text + state.kind) {
      setLines(line.tr.cells[AGE], COLUMNS[AGE][1](row, now));
      return;
    }
    const isNew = line.row === null;
    line.row = row;
    line.state = state.text + state.kind;
    line.place = [PLACES[state.kind], row.is_missing ? 0 : 1, row.com_id, row.type, sortable(row.source || "0.0.0.0")];
    line.tr.className = [state.kind, row.silent ? "silent" : "", key === this.chosen ? "chosen" : ""].join(" ");
    COLUMNS.forEach(([, lines, , isLit], index) => {
      const cell = line.tr.cells[index];
      if (setLines(cell, lines({ ...row, state: state.text }, now)) && isLit && !isNew) {
        light(cell);
      }
    });
    line.tr.cells[WORST].classList.toggle("late", Boolean(isLate(row)));
    this.hide(line);
  }

  newLine(key) {
    const tr = element("tr");
    tr.append(...COLUMNS.map(([, , kind]) => newCell(kind)));
    const line = new Line(tr);
    this.lines.set(key, line);
    onChoice(tr, () => line.row.is_missing || this.choose(line.row));
    this.body.append(tr);
    return line;
  }

  // Moves lines only if their order has changed, so that a reader doesn't lose his place.
  order() {
    const ordered = [...this.lines.values()].sort((one, other) => compare(one.place, other.place));
    ordered.forEach((line, index) => {
      if (this.body.rows[index] !== line.tr) {
        this.body.insertBefore(line.tr, this.body.rows[index]);
      }
    });
  }

  filter(text) {
    this.words = text.toLowerCase().split(/\s+/).filter(Boolean);
    for (const line of this.lines.values()) {
      this.hide(line);
    }
  }

  hide(line) {
    const texts = [...line.tr.cells].map((cell) => cell.textContent.toLowerCase());
    line.tr.hidden = !this.words.every((word) => texts.some((text) => text.includes(word)));
  }

  mark(number) {
    this.chosen = number;
    for (const [key, line] of this.lines) {
      line.tr.classList.toggle("chosen", key === number);
    }
  }
}

function newCell(kind) {
  const cell = element("td", "", kind);
  cell.append(element("span"), element("span", "", "second"));
  return cell;
}

function setLines(cell, lines) {
  const isSet = lines.map((text, index) => setText(cell.children[index], text));
  return isSet.includes(true);
}

function missingRow(comId, telegram) {
  return {
    is_missing: true, com_id: comId, type: "", name: telegram.name, source: "", dest: "", count: 0,
    cycle_us: telegram.cycle_us, gaps: 0, repeats: 0, restarts: 0, marks: [], marked: {}, silent: false,
  };
}

// What the first column says, and how bad it is. What is past is told, and no longer on top.
function stateOf(row, line, now) {
  if (row.is_missing) {
    return { text: "never seen", kind: "bad" };
  }
  const isNew = (mark) => !(mark in row.marked) || now - row.marked[mark] < LATELY_US;
  const told = (word, isNow) => (isNow ? word : `was: ${word}`);
  const words = [
    ...(row.silent ? ["silent"] : []), ...row.marks.map((mark) => told(mark, isNew(mark))),
    ...COUNTED.filter((name) => line.isThere(name, row[name], now)).map((name) => told(name, line.isNew(name, now))),
  ];
  const isBad = row.silent || row.marks.some(isNew);
  return { text: words.join(", ") || "ok", kind: isBad ? "bad" : words.length ? "warn" : "good" };
}

// A line of the table, and when what is counted of its row was seen to rise.
class Line {
  constructor(tr) {
    this.tr = tr;
    this.row = null;
    this.state = "";
    this.place = [];
    this.counts = {};
    this.rises = {};
  }

  isThere(name, count, now) {
    if (name in this.counts && this.counts[name] !== count) {
      this.rises[name] = now;
    }
    this.counts[name] = count;
    return count > 0;
  }

  isNew(name, now) {
    return now - (this.rises[name] ?? -Infinity) < LATELY_US;
  }
}

function compare(one, other) {
  const at = one.findIndex((part, index) => part !== other[index]);
  return at < 0 ? 0 : one[at] < other[at] ? -1 : 1;
}

function light(cell) {
  const colour = getComputedStyle(document.documentElement).getPropertyValue("--lit");
  cell.animate([{ backgroundColor: colour }, { backgroundColor: "transparent" }], 1500);
}
