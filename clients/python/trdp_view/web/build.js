// Elements of the page. Whatever comes from telegrams and names becomes text, and never HTML.

const SVG = "http://www.w3.org/2000/svg";

export function find(id) {
  return document.getElementById(id);
}

export function element(name, text = "", kind = "") {
  const made = document.createElement(name);
  made.textContent = text;
  made.className = kind;
  return made;
}

export function drawn(name, attributes, text = "") {
  const made = document.createElementNS(SVG, name);
  for (const [key, value] of Object.entries(attributes)) {
    made.setAttribute(key, value);
  }
  made.textContent = text;
  return made;
}

export function setText(cell, text) {
  if (cell.textContent === text) {
    return false;
  }
  cell.textContent = text;
  return true;
}

export function headLine(table, titles) {
  const line = element("tr");
  line.append(...titles.map(([text, kind]) => element("th", text, kind)));
  table.tHead.replaceChildren(line);
}

// Calls a function when an element is clicked, or when Enter is pressed on it.
export function onChoice(made, act) {
  made.setAttribute("tabindex", "0");
  made.addEventListener("click", act);
  made.addEventListener("keydown", (event) => {
    if (event.key === "Enter") {
      act();
    }
  });
}

// What the server answers; null if it answers nothing, or that there is no such thing.
export async function ask(way) {
  try {
    const answer = await fetch(way);
    return answer.ok ? await answer.json() : null;
  } catch {
    return null;
  }
}
