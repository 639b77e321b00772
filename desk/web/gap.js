// The tool Gap: two shapes, how near they are, and whether the cart passes straight between them.
import { badge, button, choice, el, lines } from "./dom.js";
import { Latest } from "./ask.js";
import { ends, gapLine, outline } from "./scene.js";

const RELATIONS = { apart: "Apart", touching: "Touching", overlapping: "Overlapping" };

export class Gap {
  constructor(app) {
    Object.assign(this, { app, picked: [], answer: null });
    this.latest = new Latest("pair", (answer) => this.answered(answer), app.failed);
  }

  ask() {
    const names = new Set(this.app.shapes().map((shape) => shape.name));
    this.picked = this.picked.filter((name) => names.has(name));
    if (this.picked.length < 2) {
      this.answer = null;
      this.latest.drop();
      return;
    }
    const [a, b] = this.picked;
    this.latest.wish({ a, b, cart: this.app.cart, changes: this.app.changes });
  }

  answered(answer) {
    this.answer = answer;
    this.app.draw();
    this.app.panel();
  }

  // The third shape that is picked takes the place of the first.
  pick(name) {
    if (this.picked.includes(name)) this.picked = this.picked.filter((other) => other !== name);
    else this.picked = [...this.picked, name].slice(-2);
    this.changed();
  }

  set(position, name) {
    const both = [this.picked[0], this.picked[1]];
    both[position] = name;
    this.picked = [...new Set(both.filter((one) => one))];
    this.changed();
  }

  changed() {
    this.answer = null;
    this.ask();
    this.app.drawAll();
    this.app.panel();
  }

  draw() {
    if (!this.answer) return [];
    const { clearance, passage } = this.answer;
    const both = ends(clearance);
    const parts = passage?.passable ? [outline(this.app.view, this.lane(passage), { class: "lane" })] : [];
    return both ? [...parts, gapLine(this.app.view, both, clearance.distance)] : parts;
  }

  // The places of the cart's origin that were answered, beside the two shapes: only drawn.
  lane({ direction: [u, v], low, high }) {
    const both = this.app.shapes().filter((shape) => this.picked.includes(shape.name));
    const along = both.map((shape) => shape.corners.map(([x, y]) => u * y - v * x));
    const ends = along.flatMap((values) => [Math.min(...values), Math.max(...values)]).sort((a, b) => a - b);
    const square = u * u + v * v;
    const more = 600 * Math.sqrt(square);
    const [from, to] = [ends[1] - more, ends[2] + more];
    const point = (across, way) => [(u * across - v * way) / square, (v * across + u * way) / square];
    return [point(low, from), point(high, from), point(high, to), point(low, to)];
  }

  panel() {
    const names = this.app.shapes().map((shape) => shape.name);
    const pick = (position, label) => {
      const change = (name) => this.set(position, name);
      return el("label", {}, label, choice(label, names, this.picked[position], change, "pick one"));
    };
    return [
      ...this.said(),
      el("div", { class: "row" }, pick(0, "from"), pick(1, "to")),
      this.picked.length ? button("Pick others", () => this.clear()) : null,
      lines(this.answer),
    ];
  }

  clear() {
    this.picked = [];
    this.changed();
  }

  said() {
    if (!this.answer) {
      return [el("p", { class: "hint" }, "Pick two shapes on the floor, or by their names.")];
    }
    const { relation, clearance, passage } = this.answer;
    const word = relation.relation;
    const state = word === "apart" ? "free" : word ?? "refused";
    const title = word === "apart" ? clearance.distance : RELATIONS[word] ?? "Refused";
    const said = [badge(state, title, `${this.picked.join(" and ")}`)];
    said.push(el("p", { class: "said" }, word === "apart" ? clearance.sentence : relation.sentence));
    if (passage) said.push(...this.passage(passage));
    return said;
  }

  passage(passage) {
    const passes = passage.passable;
    const title = passage.refused ? "Refused" : passes ? `${this.app.cart} passes` : `${this.app.cart} does not pass`;
    const state = passage.refused ? "refused" : passes ? "yes" : "no";
    const detail = passes ? `${passage.distance} to spare, straight and unturned` : "straight and unturned";
    const alone = "Asked of these two alone: other obstacles may be in the way. A drive asks of all.";
    return [badge(state, title, detail), el("p", { class: "said" }, passage.sentence), el("p", { class: "hint" }, alone)];
  }
}
