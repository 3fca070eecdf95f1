// The plots of the chosen row: the times between its telegrams, and the numbers of its values.

import { ask, element, find } from "./build.js";
import { saveCsv, savePng } from "./save.js";

const POINTS_MOST = 10000;
const SHOWN_FIRST = 4; // so many numbers of a value are plotted until others are chosen
const COLOURS = ["#3b82d0", "#e0452c", "#2a9d57", "#9a6fe0", "#d98510", "#1aa6b0", "#a8705c", "#d96bb5"];

// The legend of dygraphs has styles in its HTML, which the server's policy refuses. The page has its own.
Dygraph.PLUGINS = Dygraph.PLUGINS.filter((plugin) => plugin !== Dygraph.Plugins.Legend);

export class Plots {
  constructor() {
    this.number = null; // of the chosen row
    this.points = [];
    this.names = [];
    this.shown = new Set();
    this.graphs = {};
    this.asking = null;
    for (const [part, lines] of [["cycle", () => this.cycleLines()], ["value", () => this.valueLines()]]) {
      const name = () => `${this.title.replace(/[^\w.-]+/g, "_")}_${part}`;
      find(`${part}-png`).addEventListener("click", () => savePng(`${name()}.png`, find(`${part}-plot`), this.title));
      find(`${part}-csv`).addEventListener("click", () => saveCsv(`${name()}.csv`, lines()));
    }
  }

  choose(row) {
    this.close();
    this.number = row.number;
    this.title = [row.com_id, row.type, row.name, `${row.source} to ${row.dest}`].filter(Boolean).join(" ");
    find("chosen").hidden = false;
    find("chosen-title").textContent = this.title;
    this.update();
  }

  close() {
    this.number = null;
    this.points = [];
    this.names = [];
    this.shown.clear();
    find("chosen").hidden = true;
    find("series").replaceChildren();
    Object.values(this.graphs).forEach((graph) => graph.destroy());
    this.graphs = {};
  }

  // Asks for what came since the latest point, once at a time.
  async update() {
    const number = this.number;
    if (number === null || this.asking === number) {
      return;
    }
    this.asking = number;
    const after = this.points.length ? this.points[this.points.length - 1][0] : 0;
    const told = await ask(`history.json?row=${number}&after=${after}`);
    if (this.asking === number) {
      this.asking = null;
    }
    if (told !== null && number === this.number && told.points.length) {
      this.points = [...this.points, ...told.points].slice(-POINTS_MOST);
      this.nameSeries(told.points);
      this.redraw();
    }
  }

  nameSeries(points) {
    const names = new Set(this.names);
    points.forEach(([, numbers]) => Object.keys(numbers).forEach((name) => names.add(name)));
    [...names].slice(this.names.length).forEach((name) => {
      const index = this.names.push(name) - 1;
      this.addSeries(name, index);
    });
  }

  addSeries(name, index) {
    const box = element("input");
    box.type = "checkbox";
    box.checked = index < SHOWN_FIRST;
    if (box.checked) {
      this.shown.add(name);
    }
    box.addEventListener("change", () => {
      this.shown[box.checked ? "add" : "delete"](name);
      this.redraw();
    });
    const colour = element("span", "", "colour");
    colour.style.backgroundColor = COLOURS[index % COLOURS.length];
    const label = element("label");
    label.append(box, colour, element("span", name));
    find("series").append(label);
  }

  cycleLines() {
    const lines = this.points.slice(1).map(([time], index) => [time, (time - this.points[index][0]) / 1000]);
    return [["time_us", "ms"], ...lines];
  }

  valueLines() {
    const names = this.names.filter((name) => this.shown.has(name));
    const lines = this.points.map(([time, numbers]) => [time, ...names.map((name) => numbers[name] ?? null)]);
    return [["time_us", ...names], ...lines];
  }

  redraw() {
    if (this.number === null || !this.points.length) {
      return;
    }
    const colour = (name) => COLOURS[this.names.indexOf(name) % COLOURS.length];
    const names = this.names.filter((name) => this.shown.has(name));
    this.draw("cycle", this.cycleLines(), { colors: [COLOURS[0]], drawPoints: true, pointSize: 2, includeZero: true });
    this.draw("value", this.valueLines(), { colors: names.map(colour), stepPlot: true, connectSeparatedPoints: true });
  }

  // The series have names of their own for dygraphs, which would take names for HTML.
  draw(part, [head, ...lines], options) {
    const isEmpty = head.length < 2 || !lines.length;
    find(`${part}-plot`).closest(".plot").hidden = isEmpty;
    if (isEmpty) {
      return;
    }
    const style = getComputedStyle(document.documentElement);
    const line = style.getPropertyValue("--line").trim();
    const all = {
      ...options, file: lines.map(([time, ...numbers]) => [new Date(time / 1000), ...numbers]),
      labels: head.map((_, index) => `s${index}`), gridLineColor: line, axisLineColor: line,
      axisLabelWidth: 80, strokeWidth: 2,
    };
    if (this.graphs[part]) {
      this.graphs[part].updateOptions(all);
    } else {
      const { file, ...others } = all;
      this.graphs[part] = new Dygraph(find(`${part}-plot`), file, others);
    }
  }
}
