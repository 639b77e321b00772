// The drawing: grid, shapes with their names, zones, and what tools draw over them. Nothing is decided here.
import { draw, find } from "./dom.js";
import { metres } from "./view.js";

const PATTERNS = ["p-shape", "p-changed", "p-zone", "p-free", "p-touching", "p-overlapping"];

// The outline of a list of corners: a circle for one, a line for two, else a polygon.
export function outline(view, corners, attributes) {
  if (corners.length === 1) {
    const [cx, cy] = view.at(corners[0]);
    return draw("circle", { cx, cy, r: 5, ...attributes });
  }
  return draw(corners.length === 2 ? "polyline" : "polygon", { points: view.points(corners), ...attributes });
}

// Where the middle of a list of corners is, for its name.
export function middle(corners) {
  const mean = (k) => corners.reduce((sum, corner) => sum + corner[k], 0) / Math.max(corners.length, 1);
  return [mean(0), mean(1)];
}

// The two points to be joined where shapes are nearest: corners, or the foot of a corner on an edge.
export function ends({ first, second }) {
  if (!first || !second) return null;
  if (Array.isArray(first[0])) return [foot(second, first), second];
  if (Array.isArray(second[0])) return [first, foot(first, second)];
  return [first, second];
}

function foot([x, y], [[ax, ay], [bx, by]]) {
  const [dx, dy] = [bx - ax, by - ay];
  const part = ((x - ax) * dx + (y - ay) * dy) / (dx * dx + dy * dy || 1);
  return [ax + part * dx, ay + part * dy];
}

export function grid(view) {
  const size = view.round(64);
  const [left, top] = view.under([0, 0]);
  const [right, low] = view.under([view.width, view.height]);
  const lines = minor(view, size / 5, [left, right], [low, top]);
  const texts = [];
  for (let k = Math.ceil(left / size); k * size <= right; k += 1) {
    const [x] = view.at([k * size, 0]);
    lines.push(draw("line", { x1: x, x2: x, y1: 0, y2: view.height, class: k === 0 ? "axis" : "fine" }));
    texts.push(draw("text", { x: x + 3, y: view.height - 6, class: "unit" }, metres(k * size)));
  }
  for (let k = Math.ceil(low / size); k * size <= top; k += 1) {
    const [, y] = view.at([0, k * size]);
    lines.push(draw("line", { x1: 0, x2: view.width, y1: y, y2: y, class: k === 0 ? "axis" : "fine" }));
    texts.push(draw("text", { x: 5, y: y - 4, class: "unit" }, metres(k * size)));
  }
  find("grid").replaceChildren(...lines, ...texts);
  for (const id of PATTERNS) {
    const [x, y] = view.at([0, 0]).map((part) => part.toFixed(1));
    find(id).setAttribute("patternTransform", `translate(${x} ${y})`);
  }
  ruler(view);
}

// The finer lines between.
function minor(view, size, [left, right], [low, top]) {
  let [across, along] = ["", ""];
  for (let x = Math.ceil(left / size) * size; x <= right; x += size) {
    along += `M${view.at([x, 0])[0].toFixed(1)} 0v${view.height}`;
  }
  for (let y = Math.ceil(low / size) * size; y <= top; y += size) {
    across += `M0 ${view.at([0, y])[1].toFixed(1)}h${view.width}`;
  }
  return [draw("path", { d: along + across, class: "finest" })];
}

// A bar of a round length.
function ruler(view) {
  const size = view.round(90);
  const [x, y, length] = [20, view.height - 34, size * view.scale];
  const path = `M${x} ${y - 5}v5h${length}v-5`;
  find("ruler").replaceChildren(
    draw("rect", { x: x - 8, y: y - 22, width: length + 16, height: 30, rx: 4, class: "plate" }),
    draw("path", { d: path, class: "bar-line" }),
    draw("text", { x: x + length / 2, y: y - 7, class: "bar-text" }, metres(size)),
  );
}

// The shapes of a floor. Elements are kept, so that the focus is.
export class Shapes {
  constructor(view, pick) {
    Object.assign(this, { view, pick, known: new Map() });
  }

  // Shows shapes: {name, corners, look, sentence}, each also as something to pick with the keyboard.
  show(shapes) {
    const names = new Set(shapes.map((shape) => shape.name));
    for (const [name, kept] of this.known) {
      if (names.has(name)) continue;
      kept.remove();
      this.known.delete(name);
    }
    this.shapes = shapes;
    for (const shape of shapes) this.one(shape);
    labels(this.view, shapes);
  }

  one(shape) {
    const { name, corners, look, sentence } = shape;
    let group = this.known.get(name);
    if (!group) {
      group = draw("g", { "data-name": name, tabindex: 0, role: "button" });
      group.addEventListener("keydown", (event) => {
        if (event.key !== "Enter" && event.key !== " ") return;
        event.preventDefault();
        event.stopPropagation();
        this.pick(name);
      });
      this.known.set(name, group);
      find("shapes").append(group);
    }
    group.setAttribute("aria-label", sentence);
    group.setAttribute("class", `thing ${look}`);
    const kind = corners.length < 3 ? "thin" : "wide";
    group.replaceChildren(
      outline(this.view, corners, { class: "hit" }),
      outline(this.view, corners, { class: `shape ${kind} ${look}` }),
    );
  }
}

// Names beside their shapes: chosen ones first, and none over another.
function labels(view, shapes) {
  const taken = [];
  const rank = (shape) => (shape.look.includes("chosen") ? 0 : 1);
  const texts = [...shapes].sort((a, b) => rank(a) - rank(b)).map((shape) => {
    const [x, y] = view.at(middle(shape.corners));
    const [wide, lift] = [shape.name.length * 7.2 + 8, shape.corners.length < 3 ? -10 : 4];
    const box = [x - wide / 2, y + lift - 12, x + wide / 2, y + lift + 4];
    const inside = x > 0 && y > 0 && x < view.width && y < view.height;
    const isClear = ([left, top, right, low]) => box[2] < left || box[0] > right || box[3] < top || box[1] > low;
    const free = taken.every(isClear);
    if (!inside || !free) return null;
    taken.push(box);
    return draw("text", { x, y: y + lift, class: `name ${shape.look}` }, shape.name);
  });
  find("labels").replaceChildren(...texts.filter((text) => text));
}

// A distance for the drawing: one that was rounded down is more than what is said.
export function short(distance) {
  return distance.endsWith(" (rounded down)") ? `> ${distance.replace(" (rounded down)", "")}` : distance;
}

// A line between two points of the floor with a text at its middle.
export function gapLine(view, [a, b], text) {
  const [[x1, y1], [x2, y2]] = [view.at(a), view.at(b)];
  return draw(
    "g",
    { class: "gap-line" },
    draw("line", { x1, y1, x2, y2, class: "gap-under" }),
    draw("line", { x1, y1, x2, y2, class: "gap" }),
    draw("circle", { cx: x1, cy: y1, r: 3.5, class: "gap-end" }),
    draw("circle", { cx: x2, cy: y2, r: 3.5, class: "gap-end" }),
    plate([(x1 + x2) / 2, (y1 + y2) / 2 - 13], short(text)),
  );
}

// A text on a plate.
export function plate([x, y], text, look = "") {
  const wide = text.length * 7.5 + 16;
  return draw(
    "g",
    { class: `plate-text ${look}` },
    draw("rect", { x: x - wide / 2, y: y - 10, width: wide, height: 20, rx: 10 }),
    draw("text", { x, y: y + 4 }, text),
  );
}
