// The tool Cart: an outline of the map that is dragged over the floor.
import { badge, choice, draw, el, find, lines, millimetres } from "./dom.js";
import { Latest } from "./ask.js";
import { ends, gapLine, middle, outline, plate } from "./scene.js";

export const WORDS = {
  free: "Free",
  touching: "Touching",
  overlapping: "Overlapping",
  alone: "Free: the floor has no obstacle",
  refused: "Refused",
};

export class Cart {
  constructor(app) {
    this.app = app;
    this.at = null;
    this.answer = null;
    this.zones = [];
    this.hasZones = true;
    this.latest = new Latest("place", (answer, wish) => this.placed(answer, wish), app.failed);
  }

  // Asks about the cart where it is wished to be.
  ask() {
    const { cart, floor } = this.app;
    if (!cart || !this.at) return this.latest.drop();
    this.latest.wish({ cart, floor, at: this.at, changes: this.app.changes });
  }

  placed(answer, wish) {
    this.answer = { ...answer, cart: wish.cart, floor: wish.floor };
    this.app.draw();
    this.app.panel();
  }

  move(at) {
    this.at = at.map((part) => Math.max(-1e6, Math.min(1e6, Math.round(part))));
    this.ask();
    this.app.draw();
  }

  // What a press takes hold of.
  grip(event, pixel) {
    if (!event.target.closest(".cart-group")) return null;
    const { view, step } = this.app;
    const [x, y] = view.under(pixel);
    const [dx, dy] = [this.at[0] - x, this.at[1] - y];
    const snap = (part) => Math.round(part / step) * step;
    const move = (to) => {
      const [u, v] = view.under(to);
      this.move([snap(u + dx), snap(v + dy)]);
    };
    return { move };
  }

  key([dx, dy]) {
    if (!this.at) return false;
    this.move([this.at[0] + dx, this.at[1] + dy]);
    return true;
  }

  // The solid cart is where it was answered; while an answer is awaited, an outline without a state goes ahead.
  // Bare, it is in the way of nothing.
  draw(isBare) {
    const { view, cart, floor } = this.app;
    const own = this.answer?.cart === cart && this.answer?.floor === floor ? this.answer : null;
    const state = own?.state ?? "refused";
    const parts = [];
    if (own?.corners) {
      parts.push(outline(view, own.corners, { class: `cart ${state}` }));
      if (isBare) return draw("g", { class: "cart-group" }, ...parts);
      parts.push(...this.near(own));
      const [cx, cy] = view.at(own.at);
      parts.push(draw("circle", { cx, cy, r: 5, class: "origin" }), draw("circle", { cx, cy, r: 1.5, class: "dot" }));
      parts.push(plate(this.beside(own), `${cart} · ${WORDS[state].split(":")[0].toLowerCase()}`, state));
    }
    if (this.at && own && String(own.at) !== String(this.at)) parts.push(this.ahead());
    return draw("g", { class: "cart-group", tabindex: 0, role: "application", "aria-label": `${cart}` }, ...parts);
  }

  near({ near, state }) {
    if (state !== "free" || !near?.length) return [];
    const both = ends(near[0]);
    return both ? [gapLine(this.app.view, both, near[0].distance)] : [];
  }

  // Above the cart, or below it if the nearest points are above.
  beside({ corners, near, state }) {
    const { view } = this.app;
    const [x, y] = view.at(middle(corners));
    const heights = corners.map((corner) => view.at(corner)[1]);
    const both = state === "free" && near?.length ? ends(near[0]) : null;
    const isAbove = both && view.at(middle(both))[1] < y + 14;
    return isAbove ? [x, Math.max(...heights) + 20] : [x, Math.min(...heights) - 18];
  }

  ahead() {
    const shape = this.app.carts().find((cart) => cart.name === this.app.cart);
    const moved = shape.corners.map(([x, y]) => [x + this.at[0], y + this.at[1]]);
    return outline(this.app.view, moved, { class: "ahead" });
  }

  // The shapes grown by the cart's outline.
  drawZones() {
    const shown = this.hasZones ? this.zones : [];
    const parts = shown.filter((zone) => zone.corners);
    find("zones").replaceChildren(...parts.map((zone) => outline(this.app.view, zone.corners, { class: "zone" })));
  }

  panel() {
    const { cart, step } = this.app;
    if (!cart) return [el("p", { class: "hint" }, "The map has no outline, so there is no cart. Write one as ",
      el("code", {}, "outline | cart | 0 0 600 0 600 900 0 900"), " and start again.")];
    const coordinate = (name, k) => el("label", {}, `${name} in mm`, millimetres(name, this.at?.[k] ?? "", (number) => {
      this.move(this.at.with(k, number));
    }));
    return [
      ...this.said(),
      el("div", { class: "row" }, coordinate("x", 0), coordinate("y", 1), stepChoice(this.app)),
      this.zoneBox(),
      el("p", { class: "hint" }, `Drag the cart, or move it with the arrow keys: ${step} mm a step.`),
      lines(this.answer),
    ];
  }

  said() {
    if (!this.answer) return [el("p", { class: "hint" }, "Drag the cart.")];
    const { state, near = [], meets = [], sentence } = this.answer;
    const first = near[0];
    const names = meets.map((met) => met.name).join(", ");
    const detail = state === "free" ? `${first.distance} to ${first.shapes[1].name}` : names;
    const sentences = [sentence, ...near.map((one) => one.sentence)].filter((text) => text);
    return [badge(state, WORDS[state], detail), ...sentences.map((text) => el("p", { class: "said" }, text))];
  }

  zoneBox() {
    const onchange = (event) => {
      this.hasZones = event.target.checked;
      this.drawZones();
    };
    const box = el("input", { type: "checkbox", checked: this.hasZones, "data-key": "zones", onchange });
    const wrong = this.zones.filter((zone) => zone.refused);
    const refused = wrong.map((zone) => el("p", { class: "said" }, zone.refused.sentence));
    return el("div", {}, el("label", { class: "check" }, box, "Show where its origin must not be"), ...refused);
  }
}

// How many millimetres a step is.
export function stepChoice(app) {
  const steps = ["1", "10", "50", "100", "500"];
  const change = (value) => {
    app.step = Number(value);
    app.panel();
  };
  return el("label", {}, "Step in mm", choice("step", steps, String(app.step), change));
}
