// The tool Edit: a shape corner by corner. At once it is said whether it is one, why not, and which answers change.
import { ask, Latest } from "./ask.js";
import { badge, button, choice, draw, el, millimetres } from "./dom.js";
import { outline } from "./scene.js";
import { stepChoice, WORDS } from "./cart.js";

export class Edit {
  constructor(app) {
    Object.assign(this, { app, name: null, corners: [], chosen: 0, judged: null, compared: [] });
    this.latest = new Latest("judge", (answer, wish, keep) => this.answered(answer, wish, keep), app.failed);
  }

  // Takes up a shape of the floor.
  take(name) {
    const shape = this.app.all().find((one) => one.name === name && !one.made);
    this.name = shape ? name : null;
    this.corners = shape ? shape.corners.map((corner) => [...corner]) : [];
    this.chosen = Math.min(this.chosen, Math.max(0, this.corners.length - 1));
    this.judged = null;
    this.compared = [];
    if (shape) this.ask(false);
    this.app.drawAll();
    this.app.panel();
  }

  pick(name) {
    this.chosen = 0;
    this.take(name);
  }

  ask(keep) {
    if (!this.name) return;
    const { floor, changes } = this.app;
    this.latest.wish({ name: this.name, floor, corners: this.corners, changes }, keep);
  }

  answered(answer, wish, keep) {
    if (wish.name !== this.name) return;
    this.judged = answer;
    if (answer.accepted && keep) this.keep(answer);
    else this.compare();
    this.app.draw();
    this.app.panel();
  }

  // An accepted shape becomes a change of the map. Its list may begin at another corner then.
  keep({ corners }) {
    const chosen = String(this.corners[this.chosen]);
    this.corners = corners;
    this.chosen = Math.max(0, corners.findIndex((corner) => String(corner) === chosen));
    this.app.change({ name: this.name, floor: this.app.floor, corners }).then(() => this.compare());
  }

  set(corners, keep) {
    this.corners = corners;
    this.chosen = Math.min(this.chosen, Math.max(0, corners.length - 1));
    this.ask(keep);
    this.app.draw();
    if (keep) this.app.panel();
  }

  moved(k, corner, keep) {
    const bound = (part) => Math.max(-1e6, Math.min(1e6, part));
    this.set(this.corners.map((other, position) => (position === k ? corner.map(bound) : other)), keep);
  }

  insert(k) {
    const [a, b] = [this.corners[k], this.corners[(k + 1) % this.corners.length]];
    const [dx, dy] = [b[0] - a[0], b[1] - a[1]];
    // A little outwards, since a corner in line with its neighbours is none.
    const out = Math.max(1, Math.hypot(dx, dy) / 10) / (Math.hypot(dx, dy) || 1);
    const between = [(a[0] + b[0]) / 2 + dy * out, (a[1] + b[1]) / 2 - dx * out].map(Math.round);
    this.chosen = k + 1;
    this.set(this.corners.toSpliced(k + 1, 0, between), true);
  }

  remove(k) {
    if (this.corners.length > 1) this.set(this.corners.toSpliced(k, 1), true);
  }

  grip(event) {
    const handle = event.target.closest(".corner");
    if (!handle) return null;
    const k = Number(handle.dataset.corner);
    this.chosen = k;
    this.app.panel();
    const { view, step } = this.app;
    const snap = (part) => Math.round(part / step) * step;
    const move = (pixel) => this.moved(k, view.under(pixel).map(snap), false);
    const end = () => this.ask(true);
    return { move, end };
  }

  key([dx, dy]) {
    const corner = this.corners[this.chosen];
    if (!this.name || !corner) return false;
    this.moved(this.chosen, [corner[0] + dx, corner[1] + dy], true);
    return true;
  }

  draw() {
    if (!this.name) return [];
    const { view } = this.app;
    const refused = this.judged && !this.judged.accepted;
    const parts = [outline(view, this.corners, { class: refused ? "draft refused" : "draft" })];
    if (refused) parts.push(...this.broken(this.judged.judge.refused));
    const handles = this.corners.map((corner, k) => {
      const [cx, cy] = view.at(corner);
      const label = `corner ${k + 1} at ${corner.join(", ")}`;
      const look = k === this.chosen ? "corner chosen" : "corner";
      return draw("g", { class: look, "data-corner": k, "aria-label": label },
        draw("circle", { cx, cy, r: 11, class: "hit" }), draw("circle", { cx, cy, r: 6.5, class: "knob" }),
        draw("text", { x: cx + 9, y: cy - 8 }, String(k + 1)));
    });
    return [...parts, ...handles];
  }

  // The corner that turns in, and the way to it, as the refusal names them.
  broken({ before, corner }) {
    if (before === undefined) return [];
    const { view } = this.app;
    const ends = [this.corners[before], this.corners[corner]];
    const [cx, cy] = view.at(ends[1]);
    return [
      draw("polyline", { points: view.points(ends), class: "broken" }),
      draw("circle", { cx, cy, r: 14, class: "broken" }),
    ];
  }

  panel() {
    const names = this.app.all().filter((shape) => !shape.made).map((shape) => shape.name);
    const pick = (name) => this.pick(name);
    const take = el("label", {}, "Obstacle", choice("obstacle", names, this.name, pick, "pick one"));
    const create = button("New obstacle", () => this.create());
    if (!this.name) {
      const hint = "Pick an obstacle on the floor, or by its name, and drag its corners.";
      return [el("p", { class: "hint" }, hint), el("div", { class: "row" }, take, create)];
    }
    const isOpen = this.judged?.turned && String(this.corners) !== String(this.judged.corners);
    return [
      ...this.said(),
      isOpen ? button("Write it so", () => this.ask(true)) : null,
      el("div", { class: "row" }, take, this.isNew() ? this.naming() : null, stepChoice(this.app)),
      this.table(),
      el("div", { class: "row" }, create,
        button("Remove it", () => this.takeOff()),
        button("As in the file", () => this.app.revert(this.name), { disabled: !this.app.isChanged(this.name) })),
      ...this.effects(),
    ];
  }

  said() {
    if (!this.judged) return [];
    const { accepted, judge, turned, dropped } = this.judged;
    const title = accepted ? "A shape" : "Not a shape: not applied";
    const which = dropped === 1 ? "a corner that is" : `${dropped} corners that are`;
    const less = dropped ? `, without ${which} in line or there twice` : "";
    const anew = `As a shape its list goes counterclockwise from its lowest corner${less}.`;
    const note = turned ? el("p", { class: "hint" }, anew) : null;
    return [badge(accepted ? "yes" : "refused", title, this.name), el("p", { class: "said" }, judge.sentence), note];
  }

  table() {
    const row = (corner, k) => {
      const part = (axis, at) => millimetres(`${axis} of corner ${k + 1}`, corner[at], (number) => {
        this.chosen = k;
        this.moved(k, this.corners[k].with(at, number), true);
      });
      const look = { class: k === this.chosen ? "chosen" : null, onfocusin: () => this.choose(k) };
      const add = button("+", () => this.insert(k), { title: "A corner after this one", "data-key": `add ${k}` });
      const away = button("−", () => this.remove(k), { title: "Take this corner away", "data-key": `away ${k}` });
      return el("tr", look, el("th", { scope: "row" }, String(k + 1)), el("td", {}, part("x", 0)),
        el("td", {}, part("y", 1)), el("td", {}, add, away));
    };
    const head = el("tr", {}, ...["", "x in mm", "y in mm", ""].map((text) => el("th", { scope: "col" }, text)));
    return el("table", { class: "corners" }, head, ...this.corners.map(row));
  }

  choose(k) {
    if (this.chosen === k) return;
    this.chosen = k;
    this.app.draw();
  }

  create() {
    let number = 1;
    while (this.app.names.has(`new-${number}`) || this.app.isChanged(`new-${number}`)) number += 1;
    const [x, y] = [this.app.view.x, this.app.view.y].map((part) => Math.round(part / 100) * 100);
    const half = Math.max(100, Math.round(40 / this.app.view.scale / 100) * 100);
    this.name = `new-${number}`;
    this.chosen = 0;
    this.set([[x - half, y - half], [x + half, y - half], [x + half, y + half], [x - half, y + half]], true);
  }

  // Whether the file has no such name.
  isNew() {
    return this.app.isChanged(this.name) && !this.app.names.has(this.name);
  }

  naming() {
    const onchange = (event) => this.rename(event.target.value.trim());
    const input = el("input", { type: "text", value: this.name, maxlength: 64, "data-key": "name", onchange });
    return el("label", {}, "Name", input);
  }

  async rename(to) {
    const { name } = this;
    if (!to || to === name || this.app.names.has(to) || this.app.isChanged(to)) return this.app.panel();
    const change = { name: to, floor: this.app.floor, corners: this.corners };
    try {
      await ask("judge", { ...change, changes: [] });
      this.name = to;
      await this.app.change(change, name);
      this.take(to);
    } catch (error) {
      this.app.failed(error);
      this.app.panel();
    }
  }

  takeOff() {
    const name = this.name;
    this.take(null);
    this.app.change({ name, floor: this.app.floor, corners: [] });
  }

  // What the page shows, asked of the map of the file and of the changed one. One comparison at a time.
  async compare() {
    this.isBehind = true;
    if (this.isComparing) return;
    this.isComparing = true;
    while (this.isBehind) {
      this.isBehind = false;
      await this.comparedOnce().catch((error) => error.name === "ended" && this.app.failed(error));
    }
    this.isComparing = false;
  }

  async comparedOnce() {
    const { judged, name } = this;
    if (!judged?.accepted) return;
    const others = this.app.changes.filter((change) => change.name !== name);
    const changes = [...others, { name, floor: this.app.floor, corners: judged.corners }];
    const before = await shown(this.app, []);
    const after = await shown(this.app, changes);
    if (this.name !== name) return;
    this.compared = before.map((row, k) => ({ ...row, after: after[k] }));
    this.app.panel();
  }

  effects() {
    const { judged } = this;
    if (!judged?.accepted) return [];
    const { grows, shrinks, before, after, answers, same } = judged;
    const rows = [];
    const was = grows ? before?.sentence ?? "nothing" : null;
    if (before || after) rows.push(difference("Nearest to it", was, after?.sentence));
    rows.push(...this.compared.map((row) => difference(row.what, row.said, row.after?.said)));
    const ofFile = (row) => difference(`Line ${row.before.line} of the file`, row.before.sentence, row.after.sentence);
    rows.push(...answers.map(ofFile));
    rows.sort((a, b) => a.classList.contains("stays") - b.classList.contains("stays"));
    const said = (look) => (text) => el("p", { class: look }, text);
    const reach = [grows?.sentence, shrinks?.sentence].filter((text) => text);
    const room = `No gap to ${this.name} is more than ${grows?.up} mm narrower than in the file.`;
    const rest = `${same} of the file's answers stay as they are.`;
    const notes = [grows && !grows.inside ? room : null, same ? rest : null];
    return [el("h2", {}, "Compared with the file"), ...reach.map(said("said")), ...rows,
      ...notes.filter((text) => text).map(said("hint"))];
  }
}

// The answers that the page shows: of the cart, the gap and the drive.
async function shown(app, changes) {
  const { cart, floor, tools } = app;
  const rows = [];
  if (cart && tools.cart.at) {
    const answer = await ask("place", { cart, floor, at: tools.cart.at, changes });
    const said = [WORDS[answer.state], ...(answer.near ?? []).map((near) => near.sentence)].join(": ");
    rows.push({ what: `${cart} at (${tools.cart.at.join(", ")})`, said });
  }
  const [a, b] = tools.gap.picked;
  if (b) {
    const answer = await ask("pair", { a, b, cart, changes }).catch(() => null);
    const both = [answer?.clearance.sentence, answer?.passage?.sentence].filter((text) => text);
    rows.push({ what: `Gap of ${a} and ${b}`, said: both.join("; ") || "gone" });
  }
  if (cart && tools.drive.places.length > 1) {
    const { legs } = await ask("drive", { cart, floor, places: tools.drive.places, changes });
    const row = (leg, k) => ({ what: `Leg ${k + 1} of the drive`, said: leg.contact?.sentence ?? leg.sentence });
    rows.push(...legs.map(row));
  }
  return rows;
}

// An answer before and after. One that stays is said once, and so is one of a new shape, which has no before.
function difference(what, before, after = "nothing") {
  const stays = before === after;
  const word = stays ? "stays" : before === null ? "new" : "changes";
  const head = el("div", { class: "what" }, what, el("span", { class: stays ? "tag" : "tag differs" }, word));
  if (stays) return el("div", { class: "difference stays" }, head, el("p", { class: "said" }, after));
  const was = before === null ? null : el("p", { class: "said was" }, before);
  return el("div", { class: "difference" }, head, was, el("p", { class: "said now" }, after));
}
