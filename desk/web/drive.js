// The tool Drive: straight legs from place to place, each clear, or with what it meets first.
import { badge, button, draw, el, lines } from "./dom.js";
import { Latest } from "./ask.js";
import { ends, gapLine, outline, plate } from "./scene.js";
import { stepChoice } from "./cart.js";

export class Drive {
  constructor(app) {
    Object.assign(this, { app, places: [], legs: [] });
    this.latest = new Latest("drive", (answer) => this.answered(answer), app.failed);
  }

  ask() {
    const { cart, floor, changes } = this.app;
    if (!cart || this.places.length < 2) {
      this.legs = [];
      this.latest.drop();
      return;
    }
    this.latest.wish({ cart, floor, places: this.places, changes });
  }

  answered({ legs }) {
    this.legs = legs;
    this.app.draw();
    this.app.panel();
  }

  set(places) {
    this.places = places;
    this.legs = this.legs.slice(0, Math.max(0, places.length - 1));
    this.ask();
    this.app.draw();
    this.app.panel();
  }

  add(place) {
    if (this.places.length < 64) this.set([...this.places, place.map(Math.round)]);
  }

  back() {
    this.set(this.places.slice(0, -1));
  }

  click([x, y]) {
    const snap = (part) => Math.round(part / this.app.step) * this.app.step;
    this.add([snap(x), snap(y)]);
  }

  // Keys move the cart, whose place is then added.
  key(by) {
    return this.app.tools.cart.key(by);
  }

  grip(event) {
    const k = event.target.closest(".stop")?.dataset.stop;
    if (k === undefined) return null;
    const { view, step } = this.app;
    const snap = (part) => Math.round(part / step) * step;
    const move = (pixel) => {
      const place = view.under(pixel).map(snap);
      this.set(this.places.map((other, position) => (position === Number(k) ? place : other)));
    };
    return { move };
  }

  draw(isBare) {
    const parts = this.legs.map((leg) => this.leg(leg, isBare));
    const stops = this.places.map((place, k) => {
      const [cx, cy] = this.app.view.at(place);
      return draw("g", { class: "stop", "data-stop": k },
        draw("circle", { cx, cy, r: 10 }), draw("text", { x: cx, y: cy + 4 }, String(k + 1)));
    });
    return [...parts, ...stops];
  }

  leg(leg, isBare) {
    const { view } = this.app;
    const parts = [];
    if (leg.swept) parts.push(outline(view, leg.swept, { class: `swept ${leg.state}` }));
    const stop = leg.state === "meets" ? meeting(leg) : leg.to;
    const line = (a, b, look) => {
      const [[x1, y1], [x2, y2]] = [view.at(a), view.at(b)];
      return draw("line", { x1, y1, x2, y2, class: `way ${look}` });
    };
    parts.push(line(leg.from, stop, leg.state === "refused" ? "rest" : "clear"));
    if (leg.state === "meets") {
      parts.push(line(stop, leg.to, "rest"), ...this.cross(leg, stop));
    } else if (!isBare && leg.near && ends(leg.near)) {
      parts.push(gapLine(view, ends(leg.near), leg.near.distance));
    }
    return draw("g", {}, ...parts);
  }

  // The cart where it first meets something, and a cross.
  cross(leg, stop) {
    const { view, cart } = this.app;
    const own = this.app.carts().find((one) => one.name === cart);
    const there = own.corners.map(([x, y]) => [x + stop[0], y + stop[1]]);
    const [x, y] = view.at(stop);
    return [
      outline(view, there, { class: "cart overlapping ghost" }),
      draw("path", { d: `M${x - 6} ${y - 6}l12 12M${x + 6} ${y - 6}l-12 12`, class: "cross" }),
      plate([x, y - 22], `meets ${leg.name}`, "overlapping"),
    ];
  }

  panel() {
    if (!this.app.cart) return [el("p", { class: "hint" }, "The map has no outline, so there is no cart to drive.")];
    return [
      ...this.said(),
      el("ol", { class: "legs" }, ...this.legs.map((leg) => this.row(leg))),
      el("div", { class: "row" },
        button("Add the cart's place", () => this.app.tools.cart.at && this.add(this.app.tools.cart.at)),
        button("Back", () => this.back(), { disabled: this.places.length === 0 }),
        button("Clear", () => this.set([]), { disabled: this.places.length === 0 }),
        stepChoice(this.app)),
      el("p", { class: "hint" }, "Click the floor to add a place of the cart's origin, or move the cart with the arrow keys and press Enter. " +
        "Places can be dragged."),
      lines({ lines: this.legs.flatMap((leg) => leg.lines ?? []) }),
    ];
  }

  said() {
    if (this.legs.length === 0) return [el("p", { class: "hint" }, "A drive needs two places or more.")];
    const wrong = this.legs.findIndex((leg) => leg.state !== "clear");
    if (wrong < 0) {
      const count = this.legs.length === 1 ? "the whole leg" : `all ${this.legs.length} legs`;
      return [badge("clear", "Clear", `${this.app.cart} meets nothing on ${count}`)];
    }
    const leg = this.legs[wrong];
    const after = leg.contact?.distance ? `after ${leg.contact.distance}` : "at once";
    if (leg.state === "refused") return [badge("refused", "Refused", `on leg ${wrong + 1}`)];
    return [badge("meets", `Meets ${leg.name}`, `on leg ${wrong + 1}, ${after}`)];
  }

  row(leg) {
    const sentence = leg.contact?.sentence ?? leg.sentence;
    const near = leg.near ? `On its way it comes as near as ${leg.near.distance} to ${leg.name}.` : null;
    return el("li", { class: leg.state, "data-state": leg.state },
      el("p", { class: "said" }, sentence), near ? el("p", { class: "hint" }, near) : null);
  }
}

// Where a leg meets something, for the drawing: the fraction of the way that was answered.
function meeting({ from, to, contact }) {
  const part = contact.numerator / contact.denominator;
  return [0, 1].map((k) => from[k] + part * (to[k] - from[k]));
}
