// The page: floors, tools, and what is asked for each. The program answers; nothing is decided here.
import { ask, file } from "./ask.js";
import { Cart } from "./cart.js";
import { badge, el, fill, find } from "./dom.js";
import { Drive } from "./drive.js";
import { Edit } from "./edit.js";
import { Gap } from "./gap.js";
import { listen, TOOLS } from "./keys.js";
import { grid, Shapes } from "./scene.js";
import { View, watch } from "./view.js";

class App {
  constructor() {
    Object.assign(this, { map: null, floor: null, cart: null, tool: "cart", step: 10 });
    Object.assign(this, { changes: [], undone: [], done: [] });
    this.failed = (error) => this.trouble(error);
    this.view = new View(find("plan"), () => this.map && this.drawAll());
    this.tools = { cart: new Cart(this), drive: new Drive(this), gap: new Gap(this), edit: new Edit(this) };
    this.things = new Shapes(this.view, (name) => this.pick(name));
  }

  // Shapes of the floor that is shown.
  shapes() {
    return this.map.floors.find((floor) => floor.number === this.floor)?.shapes ?? [];
  }

  // The same, with the lists that are no shapes.
  all() {
    const floor = this.map.floors.find((one) => one.number === this.floor);
    return floor ? [...floor.shapes, ...floor.refused.map((one) => ({ ...one, refused: true }))] : [];
  }

  carts() {
    return this.map.carts;
  }

  isChanged(name) {
    return this.changes.some((change) => change.name === name);
  }

  async start() {
    await this.load();
    if (!this.map) return;
    const things = this.map.floors.flatMap((floor) => [...floor.shapes, ...floor.refused]);
    this.names = new Set([...things, ...this.carts()].map((one) => one.name));
    this.cart = this.carts()[0]?.name ?? null;
    await this.show(this.map.floors[0]?.number ?? 0);
    document.body.dataset.ready = "yes";
  }

  // The map with the changes, and all answers that are shown, anew.
  async load() {
    try {
      this.map = await ask("map", { changes: this.changes });
      find("ended").hidden = true;
      this.heads();
    } catch (error) {
      this.trouble(error);
    }
  }

  async refresh() {
    await this.load();
    await this.askAll();
    this.drawAll();
    this.panel();
  }

  async askAll() {
    this.tools.cart.ask();
    this.tools.gap.ask();
    this.tools.drive.ask();
    const { cart, floor, changes } = this;
    const zones = cart ? await ask("zones", { cart, floor, changes }).catch(this.failed) : null;
    if (cart === this.cart && floor === this.floor) this.tools.cart.zones = zones?.zones ?? [];
  }

  // Shows a floor. The drive and the gap of another one are left.
  async show(floor) {
    this.floor = floor;
    this.tools.drive.places = [];
    this.tools.drive.legs = [];
    this.tools.gap.picked = [];
    this.tools.edit.name = null;
    this.fit();
    this.tools.cart.at = [this.view.x, this.view.y].map((part) => Math.round(part / 100) * 100);
    this.heads();
    await this.askAll();
    this.drawAll();
    this.panel();
  }

  fit() {
    this.view.fit(this.all().flatMap((shape) => shape.corners));
  }

  use(tool) {
    this.tool = tool;
    if (tool === "edit" && this.tools.edit.name) this.tools.edit.take(this.tools.edit.name);
    this.drawAll();
    this.panel();
  }

  pick(name) {
    if (this.tool === "edit") this.tools.edit.pick(name);
    else if (this.tool === "gap") this.tools.gap.pick(name);
  }

  // A change of the map, which can be undone.
  async change(change, instead = change.name) {
    this.done.push(this.changes);
    this.undone = [];
    const others = this.changes.filter((other) => other.name !== instead);
    // What was never in the file is taken off by leaving it out.
    const isGone = change.corners.length === 0 && !this.names.has(change.name);
    this.changes = isGone ? others : [...others, change];
    await this.refresh();
  }

  async revert(name) {
    this.done.push(this.changes);
    this.undone = [];
    this.changes = this.changes.filter((other) => other.name !== name);
    await this.refresh();
    this.tools.edit.take(name);
  }

  async through(from, to) {
    if (from.length === 0) return;
    to.push(this.changes);
    this.changes = from.pop();
    await this.refresh();
    if (this.tool === "edit") this.tools.edit.take(this.tools.edit.name);
  }

  async save() {
    try {
      const blob = await file({ changes: this.changes });
      const href = URL.createObjectURL(blob);
      const name = this.changes.length ? this.map.file.replace(/(\.[^.]*)?$/, "-changed$1") : this.map.file;
      el("a", { href, download: name }).click();
      setTimeout(() => URL.revokeObjectURL(href), 10000);
      this.saved = this.changes;
      this.heads();
    } catch (error) {
      this.trouble(error);
    }
  }

  trouble(error) {
    const banner = find("ended");
    banner.hidden = false;
    banner.textContent = error.message;
    if (error.name === "ended") document.body.classList.add("ended");
  }

  // File, floors, cart, tools and what is wrong with the map.
  heads() {
    find("file").textContent = this.map.file;
    document.title = `${this.map.file} · floor ${this.floor ?? ""}`;
    const count = this.changes.length;
    find("changed").hidden = count === 0;
    find("changed").textContent = count === 1 ? "1 change" : `${count} changes`;
    find("undo").disabled = this.done.length === 0;
    find("redo").disabled = this.undone.length === 0;
    const tab = ({ number }) => el("button", {
      type: "button", role: "tab", "aria-selected": number === this.floor ? "true" : "false",
      "data-key": `floor ${number}`, onclick: () => this.show(number),
    }, `Floor ${number}`);
    fill(find("floors"), this.map.floors.map(tab));
    const option = ({ name }) => el("option", { value: name, selected: name === this.cart }, name);
    fill(find("cart"), this.carts().length ? this.carts().map(option) : [el("option", {}, "none")]);
    this.problems();
  }

  problems() {
    const { problems } = this.map;
    const text = ({ line, sentence }) => el("li", {}, el("b", {}, `line ${line}: `), sentence);
    const one = "One line is left out, and no answer counts it";
    const many = `${problems.length} lines are left out, and no answer counts them`;
    find("problems").hidden = problems.length === 0;
    fill(find("problems"), badge("refused", "The map is not whole", problems.length === 1 ? one : many),
      el("ul", {}, ...problems.map(text)));
  }

  panel() {
    const tab = ([id, word, key]) => el("button", {
      type: "button", role: "tab", "aria-selected": id === this.tool ? "true" : "false",
      title: `${word} (${key.toUpperCase()})`, "data-key": id, onclick: () => this.use(id),
    }, word);
    fill(find("tools"), TOOLS.map(tab));
    const tool = find("tool");
    tool.dataset.tool = this.tool;
    fill(tool, this.tools[this.tool].panel());
    const row = ({ line, sentence }) => el("li", {}, el("b", {}, `line ${line}: `), sentence);
    const { answers } = this.map;
    const list = [el("h2", {}, "Answers of the file"), el("ul", {}, ...answers.map(row))];
    fill(find("file-answers"), answers.length ? list : []);
    this.announce();
  }

  // Says the answer to those who do not see it, once it stays for a moment.
  announce() {
    clearTimeout(this.speaking);
    this.speaking = setTimeout(() => {
      const parts = [...document.querySelectorAll("#tool .badge > div > *")].map((part) => part.textContent);
      find("live").textContent = parts.join(", ");
    }, 400);
  }

  // Draws what depends on the view and the map.
  drawAll() {
    grid(this.view);
    const { tool, tools } = this;
    const look = (shape) => [
      this.isChanged(shape.name) ? "changed" : "",
      shape.refused ? "refused" : "",
      tool === "gap" && tools.gap.picked.includes(shape.name) ? "chosen" : "",
      tool === "edit" && tools.edit.name === shape.name ? "chosen edited" : "",
      tool === "gap" || (tool === "edit" && !shape.made) ? "pickable" : "",
    ].join(" ");
    this.things.show(this.all().map((shape) => ({ ...shape, look: look(shape) })));
    this.draw();
  }

  // Draws what tools draw over the floor.
  draw() {
    const { tool, tools } = this;
    find("plan").dataset.tool = tool;
    const carts = this.cart && tool !== "gap" ? [tools.cart.draw(tool !== "cart")] : [];
    const held = find("carts").contains(document.activeElement);
    find("carts").replaceChildren(...carts);
    if (held) find("carts").firstElementChild?.focus({ preventScroll: true });
    find("drive").replaceChildren(...(tool === "drive" || tool === "edit" ? tools.drive.draw(tool === "edit") : []));
    const over = tool === "gap" ? tools.gap.draw() : tool === "edit" ? tools.edit.draw() : [];
    find("over").replaceChildren(...over);
    if (tool === "gap") find("zones").replaceChildren();
    else tools.cart.drawZones();
  }
}

const app = new App();

watch(app.view, {
  down: (event) => app.tools[app.tool].grip?.(event, app.view.pixel(event)),
  hover: (pixel) => {
    const [x, y] = app.view.under(pixel).map(Math.round);
    find("pointer").textContent = `${x}, ${y} mm`;
  },
  click: (target, pixel) => {
    const name = target.closest("#shapes [data-name]")?.dataset.name;
    if (app.tool === "drive" && !target.closest(".stop")) app.tools.drive.click(app.view.under(pixel));
    else if (name) app.pick(name);
  },
});

listen(app);

find("cart").addEventListener("change", (event) => {
  app.cart = event.target.value;
  app.tools.cart.answer = null;
  app.refresh();
});
const CLICKS = {
  in: () => app.view.zoom(1.25),
  out: () => app.view.zoom(0.8),
  fit: () => app.fit(),
  keys: () => find("help").showModal(),
  undo: () => app.through(app.done, app.undone),
  redo: () => app.through(app.undone, app.done),
  save: () => app.save(),
  print: () => window.print(),
};
for (const [id, done] of Object.entries(CLICKS)) find(id).addEventListener("click", done);
window.addEventListener("beforeprint", () => {
  const count = app.changes.length;
  const changes = count === 1 ? "1 change" : `${count} changes`;
  const state = count ? `with ${changes} of the file` : "as in the file";
  const now = new Date().toLocaleString();
  find("printed").textContent = `${app.map.file}, floor ${app.floor}, ${state}. Printed ${now}.`;
});
window.addEventListener("beforeunload", (event) => {
  if (app.changes.length && app.saved !== app.changes) event.preventDefault();
});

app.start();
