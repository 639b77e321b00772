// The keyboard. All that the mouse does can be done with it.
import { find } from "./dom.js";

// The tools: what each is called in the code and on the page, and its key.
export const TOOLS = [["cart", "Cart", "c"], ["drive", "Drive", "d"], ["gap", "Gap", "g"], ["edit", "Edit", "e"]];

const ARROWS = { ArrowLeft: [-1, 0], ArrowRight: [1, 0], ArrowUp: [0, 1], ArrowDown: [0, -1] };

// Moves what the tool holds by a step: with Shift by ten, with Alt by 1 mm. Otherwise the floor is panned.
function arrow(app, event) {
  const way = ARROWS[event.key];
  const size = event.altKey ? 1 : app.step * (event.shiftKey ? 10 : 1);
  if (app.tools[app.tool].key?.(way.map((part) => part * size))) return;
  app.view.pan(-way[0] * 60, way[1] * 60);
}

function floorBeside(app, by) {
  const numbers = app.map.floors.map((floor) => floor.number);
  const next = numbers[numbers.indexOf(app.floor) + by];
  if (next !== undefined) app.show(next);
}

const PLAIN = {
  "+": (app) => app.view.zoom(1.25),
  "=": (app) => app.view.zoom(1.25),
  "-": (app) => app.view.zoom(0.8),
  0: (app) => app.fit(),
  "[": (app) => floorBeside(app, -1),
  "]": (app) => floorBeside(app, 1),
  "?": () => find("help").showModal(),
};

const OF_TOOL = {
  drive: {
    Enter: (app) => app.tools.cart.at && app.tools.drive.add(app.tools.cart.at),
    Backspace: (app) => app.tools.drive.back(),
  },
  edit: {
    Insert: ({ tools: { edit } }) => edit.name && edit.insert(edit.chosen),
    Delete: ({ tools: { edit } }) => edit.name && edit.remove(edit.chosen),
  },
};

const CONTROL = {
  z: (app) => app.through(app.done, app.undone),
  y: (app) => app.through(app.undone, app.done),
  s: (app) => app.save(),
};

// What a key does, if anything. Letters that are typed into a field are left to it.
function meant(app, event) {
  const isTyped = event.target.closest("input, select, textarea, dialog[open]");
  const isPressed = event.target.closest("button, summary") && ["Enter", " "].includes(event.key);
  const key = event.key.length === 1 ? event.key.toLowerCase() : event.key;
  if (event.ctrlKey || event.metaKey) return isTyped && key !== "s" ? null : CONTROL[key];
  if (isTyped || isPressed) return null;
  if (ARROWS[key]) return () => arrow(app, event);
  const tool = TOOLS.find(([, , own]) => own === key);
  if (tool) return () => app.use(tool[0]);
  return OF_TOOL[app.tool]?.[key] ?? PLAIN[key];
}

export function listen(app) {
  document.addEventListener("keydown", (event) => {
    const done = app.map && meant(app, event);
    if (!done) return;
    event.preventDefault();
    done(app);
  });
}
