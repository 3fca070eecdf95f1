// The sessions of messages: a list of them, and the chosen one as a ladder between devices.

import { drawn, element, find, headLine, onChoice } from "./build.js";
import { clock, milliseconds } from "./format.js";
import { saveSvg } from "./save.js";

const LISTED_MOST = 50;
const LEFT = 130; // where the first device stands, behind the times
const BETWEEN = 240; // from one device to the next
const TOP = 50;
const STEP = 44; // from one telegram to the next
const ARROW = 10;

function stateOf(session) {
  if (session.never.length) {
    return ["bad", session.never.map((it) => `no ${it}`).join(", ")];
  }
  return session.ended ? ["good", "ended"] : ["warn", "open"];
}

export class Ladder {
  constructor(chooseTelegram) {
    this.chooseTelegram = chooseTelegram;
    this.sessions = new Map();
    this.chosen = null;
    this.drawn = null;
    this.listed = "";
    headLine(find("sessions"), [["State", ""], ["Began", ""], ["Request", ""], ["Telegrams", "number"]]);
    find("ladder-svg").addEventListener("click", () => saveSvg("ladder.svg", find("ladder").firstElementChild));
  }

  show(sessions) {
    this.sessions = sessions;
    const latest = [...sessions.values()].sort((one, other) => begun(other) - begun(one)).slice(0, LISTED_MOST);
    if (!latest.length) {
      return;
    }
    this.chosen = sessions.has(this.chosen) ? this.chosen : latest[0].session;
    this.list(latest);
    this.draw(sessions.get(this.chosen));
  }

  list(sessions) {
    const shown = sessions.map((it) => [it.session, stateOf(it), it.telegrams.length]);
    const listed = JSON.stringify([this.chosen, shown]);
    if (listed === this.listed) {
      return;
    }
    this.listed = listed;
    find("sessions").tBodies[0].replaceChildren(...sessions.map((session) => this.line(session)));
  }

  line(session) {
    const [kind, state] = stateOf(session);
    const line = element("tr", "", `${kind} ${session.session === this.chosen ? "chosen" : ""}`);
    const count = session.telegrams.length + session.left_out;
    const request = [session.com_id, session.name].filter(Boolean).join(" ");
    line.append(element("td", state), element("td", clock(begun(session))), element("td", request),
      element("td", String(count), "number"));
    onChoice(line, () => {
      this.chosen = session.session;
      this.show(this.sessions);
    });
    return line;
  }

  draw(session) {
    if (this.drawn === session) {
      return;
    }
    this.drawn = session;
    const devices = [...new Set(session.telegrams.flatMap((it) => [it.source, it.dest]))];
    const rows = session.telegrams.length + session.never.length;
    const width = LEFT + devices.length * BETWEEN;
    const height = TOP + rows * STEP + 20;
    const svg = drawn("svg", { width, height, viewBox: `0 0 ${width} ${height}`, role: "img" });
    devices.forEach((device) => this.drawDevice(svg, device, place(devices, device), height));
    session.telegrams.forEach((telegram, index) => this.drawTelegram(svg, session, devices, telegram, index));
    session.never.forEach((never, index) => {
      drawNever(svg, session, devices, never, TOP + (session.telegrams.length + index) * STEP + 26);
    });
    find("ladder").replaceChildren(svg);
    find("session").textContent = `Session ${session.session}`;
    find("ladder-part").hidden = false;
  }

  drawDevice(svg, device, x, height) {
    svg.append(drawn("line", { class: "life", x1: x, y1: 30, x2: x, y2: height }));
    svg.append(drawn("text", { class: "device", x, y: 20, "text-anchor": "middle" }, device));
  }

  drawTelegram(svg, session, devices, telegram, index) {
    const y = TOP + index * STEP + 26;
    const isRepeat = telegram.type === "Mr" && telegram.counter > 0;
    const after = index ? `+${milliseconds(telegram.at_us - begun(session))}` : clock(telegram.at_us);
    const label = [telegram.type, telegram.com_id, isRepeat ? `repeat ${telegram.counter}` : "",
      telegram.status ? `status ${telegram.status}` : ""].filter((it) => it !== "").join(" ");
    const group = drawn("g", { class: isRepeat ? "telegram repeat" : "telegram", role: "button" });
    const ends = [place(devices, telegram.source), place(devices, telegram.dest)];
    const width = LEFT + devices.length * BETWEEN;
    group.append(drawn("rect", { class: "hit", x: 0, y: y - 24, width, height: STEP - 4 }));
    group.append(drawn("text", { class: "time", x: 4, y: y + 5 }, after));
    drawArrow(group, ends, y, label);
    onChoice(group, () => this.chooseTelegram(session.session, index));
    svg.append(group);
  }
}

function begun(session) {
  return session.telegrams[0].at_us;
}

function place(devices, device) {
  return LEFT + devices.indexOf(device) * BETWEEN + BETWEEN / 2;
}

function drawArrow(group, [from, to], y, label) {
  // A device may talk to itself: its arrow is short.
  const end = from === to ? from + 60 : to;
  const back = end > from ? -ARROW : ARROW;
  group.append(drawn("line", { class: "arrow", x1: from, y1: y, x2: end, y2: y }));
  group.append(drawn("path", { class: "head", d: `M${end},${y} l${back},${-ARROW / 2} v${ARROW} z` }));
  group.append(drawn("text", { class: "label", x: (from + end) / 2, y: y - 6, "text-anchor": "middle" }, label));
}

// An answer goes back to where the request came from. A confirmation goes from there, to the device that it names.
function drawNever(svg, session, devices, never, y) {
  const [first] = session.telegrams;
  const asker = first.type === "Mr" ? first.source : first.dest;
  const ends = never === "answer" ? [first.dest, asker] : [asker, never.split(" ").pop()];
  const group = drawn("g", { class: "never" });
  drawArrow(group, ends.map((device) => place(devices, device)), y, `no ${never}`);
  svg.append(group);
}
