// A telegram, header field by field, with its value.

import { ask, element, find } from "./build.js";
import { clock } from "./format.js";

export async function showTelegram(way) {
  const told = await ask(way);
  find("telegram").hidden = told === null;
  if (told === null) {
    return;
  }
  const kind = told.fields.find(([name]) => name === "msgType")[1];
  find("telegram-title").textContent = `Telegram ${kind}, ${clock(told.at_us)}`;
  find("fields").tBodies[0].replaceChildren(...told.fields.map(([name, text]) => {
    const line = element("tr");
    line.append(element("th", name), element("td", text));
    return line;
  }));
  const title = told.value === null ? "No value of its dataset, or not kept whole" : `Value of ${told.dataset}`;
  find("payload").replaceChildren(
    element("h3", title), element("p", told.value || ""), element("h3", "Payload"), element("pre", told.data || "-"));
}
