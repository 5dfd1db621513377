// How a chart is moved and asked: by wheel, by dragging, by two fingers, by keys and by buttons.
import { LANE, TOP, lowest } from "./chart.js";

const at = id => document.getElementById(id);
const FAR = 4;
const STEP = 1.5;
const PAN = 0.4;

export class Pointing {
  // `view` has the `chart` that is seen, and `again`, `pick` and `say`.
  constructor(view) {
    Object.assign(this, { view, pointers: new Map(), held: null, lane: 0 });
    const { canvas } = view;
    canvas.addEventListener("wheel", event => this.wheel(event), { passive: false });
    canvas.addEventListener("pointerdown", event => this.hold(event));
    canvas.addEventListener("pointermove", event => this.move(event));
    canvas.addEventListener("pointerup", event => this.release(event));
    canvas.addEventListener("pointercancel", event => this.pointers.delete(event.pointerId));
    canvas.addEventListener("pointerleave", () => view.tell(null));
    canvas.addEventListener("keydown", event => this.key(event));
    at("closer").addEventListener("click", () => this.zoom(STEP));
    at("wider").addEventListener("click", () => this.zoom(1 / STEP));
    at("back").addEventListener("click", () => this.pan(-PAN));
    at("on").addEventListener("click", () => this.pan(PAN));
    at("fit").addEventListener("click", () => this.whole());
  }

  get chart() {
    return this.view.chart;
  }

  zoom(factor, x) {
    this.chart?.zoom(factor, x);
    this.view.again();
  }

  pan(part) {
    if (this.chart) this.chart.from += (part * (this.chart.width - this.chart.left)) / this.chart.scale;
    this.view.again();
  }

  whole() {
    if (this.chart) Object.assign(this.chart, { from: 0, scale: 0 });
    this.view.again();
  }

  wheel(event) {
    const { chart } = this;
    if (!chart) return;
    event.preventDefault();
    if (event.shiftKey || event.offsetX < chart.left) chart.down += event.deltaY;
    else if (Math.abs(event.deltaX) > Math.abs(event.deltaY)) chart.from += event.deltaX / chart.scale;
    else chart.zoom(Math.exp(-event.deltaY / 400), event.offsetX);
    this.view.again();
  }

  hold(event) {
    if (!this.chart) return;
    this.pointers.set(event.pointerId, { x: event.offsetX, y: event.offsetY });
    this.view.canvas.setPointerCapture(event.pointerId);
    const { from, down } = this.chart;
    this.held = { x: event.offsetX, y: event.offsetY, from, down, isMoved: this.pointers.size > 1 };
  }

  move(event) {
    const { chart } = this;
    if (!chart) return;
    if (!this.pointers.has(event.pointerId)) return this.view.tell(event, chart.under(event.offsetX, event.offsetY));
    const before = this.spread();
    this.pointers.set(event.pointerId, { x: event.offsetX, y: event.offsetY });
    if (this.pointers.size > 1) this.pinch(before);
    else this.drag(event);
    this.view.tell(null);
    this.view.again();
  }

  // How far two fingers are from one another, and the middle between them.
  spread() {
    const [one, other] = [...this.pointers.values()];
    if (!other) return null;
    return { width: Math.max(Math.hypot(one.x - other.x, one.y - other.y), 1), x: (one.x + other.x) / 2 };
  }

  pinch(before) {
    const after = this.spread();
    this.chart.zoom(after.width / before.width, before.x);
    this.chart.from -= (after.x - before.x) / this.chart.scale;
    this.held.isMoved = true;
  }

  drag(event) {
    const [right, below] = [event.offsetX - this.held.x, event.offsetY - this.held.y];
    this.held.isMoved ||= Math.abs(right) + Math.abs(below) > FAR;
    this.chart.from = this.held.from - right / this.chart.scale;
    this.chart.down = this.held.down - below;
  }

  release(event) {
    this.pointers.delete(event.pointerId);
    const isClick = this.held && !this.held.isMoved && this.pointers.size === 0;
    const found = isClick ? this.chart?.under(event.offsetX, event.offsetY) : null;
    if (this.pointers.size === 0) this.held = null;
    if (found) this.view.pick(found, true);
  }

  key(event) {
    const act = {
      "+": () => this.zoom(STEP), "=": () => this.zoom(STEP), "-": () => this.zoom(1 / STEP),
      0: () => this.whole(), Home: () => this.whole(),
      PageUp: () => this.pan(-PAN), PageDown: () => this.pan(PAN),
      ArrowRight: () => this.walk(1), ArrowLeft: () => this.walk(-1),
      ArrowDown: () => this.change(1), ArrowUp: () => this.change(-1),
      Enter: () => this.view.showPicked(),
    }[event.key];
    if (!act || !this.chart || event.ctrlKey || event.metaKey || event.altKey) return;
    event.preventDefault();
    act();
  }

  // The next or the last handler of the lane.
  walk(step) {
    const { chart } = this;
    const lane = chart.lanes[this.lane] ?? [];
    const { begins } = chart.scene.handlers;
    const at = lowest(lane.length, chart.picked + (step > 0 ? 1 : 0), it => begins[lane[it]]);
    this.go(lane[Math.min(Math.max(step > 0 ? at : at - 1, 0), lane.length - 1)]);
  }

  // The handler of another lane that is nearest to the one that is picked.
  change(step) {
    const { chart } = this;
    this.lane = Math.min(Math.max(this.lane + step, 0), chart.lanes.length - 1);
    const lane = chart.lanes[this.lane] ?? [];
    const { begins } = chart.scene.handlers;
    const at = lowest(lane.length, chart.picked, it => begins[lane[it]]);
    this.go(lane[Math.min(at, lane.length - 1)]);
  }

  go(handler) {
    if (handler === undefined) return this.view.say("this script handles no event");
    const found = this.chart.spotOf(handler);
    this.lane = found.script - 1;
    this.show(found);
    return this.view.pick(found, false);
  }

  // Moves the chart so that a line of a script is seen.
  show({ first, script }) {
    const { chart } = this;
    const x = chart.xOf(first);
    if (x < chart.left || x > chart.width - 20) chart.from = first - ((chart.width - chart.left) * 0.3) / chart.scale;
    const y = chart.laneY(script);
    if (y < TOP || y > chart.height - LANE) chart.down += y - TOP - LANE;
  }
}
