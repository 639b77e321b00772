// Pan, zoom and scale: from millimetres of the floor to pixels of the drawing, and back.
const LEAST = 2e-4;
const MOST = 4;

export class View {
  constructor(svg, change) {
    Object.assign(this, { svg, change, x: 0, y: 0, scale: 0.05, width: 1, height: 1 });
    new ResizeObserver(() => this.measure()).observe(svg);
    this.measure();
  }

  measure() {
    const { width, height } = this.svg.getBoundingClientRect();
    if (width < 1 || height < 1 || matchMedia("print").matches) return;
    Object.assign(this, { width, height });
    this.svg.setAttribute("viewBox", `0 0 ${width} ${height}`);
    this.change();
  }

  // The pixel of a point of the floor. Up on the floor is up on the drawing.
  at([x, y]) {
    return [this.width / 2 + (x - this.x) * this.scale, this.height / 2 - (y - this.y) * this.scale];
  }

  // The point of the floor at a pixel.
  under([px, py]) {
    return [this.x + (px - this.width / 2) / this.scale, this.y - (py - this.height / 2) / this.scale];
  }

  // The pixel of an event.
  pixel(event) {
    const box = this.svg.getBoundingClientRect();
    return [event.clientX - box.left, event.clientY - box.top];
  }

  points(corners) {
    return corners.map((corner) => this.at(corner).map((part) => part.toFixed(1)).join(",")).join(" ");
  }

  pan(dx, dy) {
    this.x -= dx / this.scale;
    this.y += dy / this.scale;
    this.change();
  }

  zoom(factor, pixel = [this.width / 2, this.height / 2]) {
    const [x, y] = this.under(pixel);
    this.scale = Math.min(MOST, Math.max(LEAST, this.scale * factor));
    const [u, v] = this.under(pixel);
    this.x += x - u;
    this.y += y - v;
    this.change();
  }

  // Shows all these points, with a margin.
  fit(points) {
    if (points.length === 0) return;
    const part = (k) => points.map((point) => point[k]);
    const [left, right] = [Math.min(...part(0)), Math.max(...part(0))];
    const [low, high] = [Math.min(...part(1)), Math.max(...part(1))];
    this.x = (left + right) / 2;
    this.y = (low + high) / 2;
    const wide = (this.width - 150) / Math.max(right - left, 1000);
    const tall = (this.height - 150) / Math.max(high - low, 1000);
    this.scale = Math.min(MOST, Math.max(LEAST, Math.min(wide, tall)));
    this.change();
  }

  // A round distance that is at least that number of pixels long: 1, 2 or 5 times a power of ten.
  round(pixels) {
    const least = pixels / this.scale;
    const power = 10 ** Math.floor(Math.log10(least));
    return [1, 2, 5, 10].map((times) => times * power).find((size) => size >= least);
  }
}

// Metres with the decimals that they need, for labels of the grid.
export function metres(mm) {
  return Math.abs(mm) < 1000 && mm !== 0 ? `${Math.round(mm)} mm` : `${Number((mm / 1000).toFixed(3))} m`;
}

// Listens to drags, the wheel and clicks of the ground. What a tool takes hold of is not panned.
export function watch(view, { down, hover, click }) {
  const svg = view.svg;
  let held = null;
  svg.addEventListener("pointerdown", (event) => {
    if (event.button !== 0) return;
    const from = view.pixel(event);
    held = { from, last: from, moved: false, target: event.target, grip: down(event, from) };
    svg.setPointerCapture(event.pointerId);
  });
  svg.addEventListener("pointermove", (event) => {
    const pixel = view.pixel(event);
    hover(pixel);
    if (!held) return;
    held.moved ||= Math.hypot(pixel[0] - held.from[0], pixel[1] - held.from[1]) > 3;
    if (!held.moved) return;
    svg.classList.add("dragging");
    if (held.grip?.move) held.grip.move(pixel);
    else view.pan(pixel[0] - held.last[0], pixel[1] - held.last[1]);
    held.last = pixel;
  });
  const up = (event) => {
    if (!held) return;
    const { grip, moved, from, target } = held;
    held = null;
    svg.classList.remove("dragging");
    if (moved) grip?.end?.();
    else if (event.type === "pointerup") click(target, from);
  };
  svg.addEventListener("pointerup", up);
  svg.addEventListener("pointercancel", up);
  svg.addEventListener("wheel", (event) => {
    event.preventDefault();
    view.zoom(Math.exp(-event.deltaY * 0.0015), view.pixel(event));
  }, { passive: false });
}
