// Elements. Texts are always set as texts: no name of a map can become markup.
const SVG = "http://www.w3.org/2000/svg";

export const find = (id) => document.getElementById(id);

// An element with attributes and children. What begins with "on" is listened to; false and null are left out.
export function el(tag, attributes = {}, ...children) {
  return filled(document.createElement(tag), attributes, children);
}

export function draw(tag, attributes = {}, ...children) {
  return filled(document.createElementNS(SVG, tag), attributes, children);
}

function filled(node, attributes, children) {
  for (const [key, value] of Object.entries(attributes)) {
    if (key.startsWith("on")) node.addEventListener(key.slice(2), value);
    else if (value === true) node.setAttribute(key, "");
    else if (value !== false && value !== null && value !== undefined) node.setAttribute(key, value);
  }
  node.append(...children.filter((child) => child !== null && child !== undefined && child !== false));
  return node;
}

// Replaces the children. The focus stays on what has the same data-key.
export function fill(node, ...children) {
  const key = node.contains(document.activeElement) ? document.activeElement.dataset.key : null;
  node.replaceChildren(...children.flat().filter((child) => child));
  if (key) node.querySelector(`[data-key="${CSS.escape(key)}"]`)?.focus({ preventScroll: true });
}

// A choice of names.
export function choice(key, names, chosen, change, none) {
  const option = (name) => el("option", { value: name, selected: name === chosen }, name);
  const empty = none === undefined ? null : el("option", { value: "", selected: !chosen }, none);
  const onchange = (event) => change(event.target.value || null);
  return el("select", { "data-key": key, "aria-label": key, onchange }, empty, ...names.map(option));
}

// A whole number of millimetres.
export function millimetres(key, value, change) {
  const onchange = (event) => {
    const number = Math.round(Number(event.target.value));
    if (Number.isSafeInteger(number)) change(number);
  };
  const input = el("input", { type: "number", step: 1, value, "data-key": key, "aria-label": key, onchange });
  return input;
}

export function button(text, onclick, attributes = {}) {
  return el("button", { type: "button", "data-key": text, onclick, ...attributes }, text);
}

// The question lines of an answer, to be asked again without the page.
export function lines(answer) {
  const all = (answer?.lines ?? []).join("\n");
  if (!all) return null;
  const copy = button("Copy", () => navigator.clipboard?.writeText(all));
  const summary = el("summary", {}, "Ask this without the page");
  return el("details", { class: "lines" }, summary, el("pre", {}, all), copy);
}

// A mark and a word for each state: never a colour alone.
const MARKS = {
  free: "✓", clear: "✓", yes: "✓", alone: "○", touching: "◐", overlapping: "✕", meets: "✕", no: "✕", refused: "!",
};

export function badge(state, title, detail) {
  return el(
    "div",
    { class: `badge ${state}`, "data-state": state },
    el("span", { class: "sign", "aria-hidden": "true" }, MARKS[state] ?? "·"),
    el("div", {}, el("strong", {}, title), detail ? el("span", { class: "detail" }, detail) : null),
  );
}
