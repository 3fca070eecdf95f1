// Files that a browser saves: tables as CSV, drawings as SVG, and plots as PNG.

import { drawn } from "./build.js";

function save(name, blob) {
  const link = document.createElement("a");
  link.href = URL.createObjectURL(blob);
  link.download = name;
  link.click();
  setTimeout(() => URL.revokeObjectURL(link.href), 10000);
}

export function csv(lines) {
  const word = (it) => (/[",\r\n]/.test(it) ? `"${it.replaceAll('"', '""')}"` : it);
  return lines.map((line) => line.map((it) => word(String(it ?? ""))).join(",")).join("\r\n") + "\r\n";
}

export function saveCsv(name, lines) {
  save(name, new Blob([csv(lines)], { type: "text/csv" }));
}

// The drawing has its styles by classes of the page, so they are written into it.
export function saveSvg(name, svg) {
  const copy = svg.cloneNode(true);
  const of = [...svg.querySelectorAll("*")];
  [...copy.querySelectorAll("*")].forEach((part, index) => {
    const style = getComputedStyle(of[index]);
    for (const key of ["fill", "stroke", "stroke-width", "stroke-dasharray", "font-weight", "fill-opacity"]) {
      part.setAttribute(key, style.getPropertyValue(key));
    }
  });
  const style = getComputedStyle(document.body);
  copy.setAttribute("font-family", "sans-serif");
  copy.setAttribute("font-size", "16");
  copy.prepend(drawn("rect", { width: "100%", height: "100%", fill: style.backgroundColor }));
  save(name, new Blob([new XMLSerializer().serializeToString(copy)], { type: "image/svg+xml" }));
}

// A plot is a canvas for its lines, and elements for the texts at its axes: both are drawn into one picture.
export function plotPicture(graph, title) {
  const style = getComputedStyle(document.body);
  const box = graph.getBoundingClientRect();
  const scale = window.devicePixelRatio || 1;
  const head = 30;
  const picture = document.createElement("canvas");
  picture.width = box.width * scale;
  picture.height = (box.height + head) * scale;
  const pen = picture.getContext("2d");
  pen.scale(scale, scale);
  pen.fillStyle = style.backgroundColor;
  pen.fillRect(0, 0, box.width, box.height + head);
  pen.fillStyle = style.color;
  pen.font = "600 16px sans-serif";
  pen.textBaseline = "top";
  pen.fillText(title, 8, 6);
  for (const canvas of graph.querySelectorAll("canvas")) {
    const place = canvas.getBoundingClientRect();
    pen.drawImage(canvas, place.left - box.left, place.top - box.top + head, place.width, place.height);
  }
  pen.font = "14px sans-serif";
  for (const label of graph.querySelectorAll(".dygraph-axis-label")) {
    const place = label.getBoundingClientRect();
    pen.fillText(label.textContent, place.left - box.left, place.top - box.top + head);
  }
  return picture;
}

export function savePng(name, graph, title) {
  plotPicture(graph, title).toBlob((blob) => save(name, blob), "image/png");
}
