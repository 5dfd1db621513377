// Draws a chart on its canvas.
import { CUT, ENDED, STOPPED } from "./handlers.js";
import { LANE, MARKS, TOP, lowest } from "./chart.js";
import { Steps, fitting } from "./stepdrawing.js";

const COLOURS = ["ground", "band", "line", "text", "faint", "done", "fault", "cut", "said", "step", "mark", "on"];
const MOST_ARROWS = 500;
const FONT = "12px system-ui, sans-serif";

export class Drawing {
  constructor(chart) {
    const { canvas } = chart;
    Object.assign(this, { chart, canvas, pen: canvas.getContext("2d"), colours: {} });
    this.steps = new Steps(this);
    const { handlers, journal, spoken } = chart.scene;
    this.bad = chart.lanes.map(lane => lane.filter(it => handlers.endings[it] !== ENDED));
    this.lost = spoken.filter(it => ["fault", "cut"].includes(MARKS.get(journal.kinds[it])?.[0]));
  }

  // Draws the chart, with the moment that is seen.
  draw(moment) {
    const { chart, canvas, pen } = this;
    const ratio = devicePixelRatio || 1;
    const [width, height] = [Math.round(chart.width * ratio), Math.round(chart.height * ratio)];
    if (canvas.width !== width || canvas.height !== height) Object.assign(canvas, { width, height });
    const style = getComputedStyle(document.documentElement);
    for (const name of COLOURS) this.colours[name] = style.getPropertyValue(`--${name}`).trim();
    pen.setTransform(ratio, 0, 0, ratio, 0, 0);
    pen.fillStyle = this.colours.ground;
    pen.fillRect(0, 0, chart.width, chart.height);
    pen.font = FONT;
    pen.textBaseline = "middle";
    this.drawLanes();
    this.steps.draw();
    for (const [top, draw] of [[TOP, "drawHandlers"], [22, "drawArrows"], [TOP, "drawMarks"], [TOP, "drawCrossings"]]) {
      pen.save();
      pen.beginPath();
      pen.rect(chart.left, top, chart.width, chart.height);
      pen.clip();
      this[draw]();
      pen.restore();
    }
    if (moment) this.drawMoment(moment);
    this.drawNames();
  }

  // A line from top to bottom, with a point at the lane of the script.
  drawMoment({ line, script }) {
    const { chart, pen } = this;
    const x = chart.xOf(line);
    if (x < chart.left || x > chart.width) return;
    pen.strokeStyle = pen.fillStyle = this.colours.fault;
    pen.lineWidth = 2;
    this.drawLine(x, 0, x, chart.height);
    pen.lineWidth = 1;
    const y = chart.laneY(script) + LANE / 2;
    if (!script || y < TOP) return;
    pen.beginPath();
    pen.arc(x, y, 4, 0, 2 * Math.PI);
    pen.fill();
  }

  drawLine(x, y, toX, toY) {
    this.pen.beginPath();
    this.pen.moveTo(x, y);
    this.pen.lineTo(toX, toY);
    this.pen.stroke();
  }

  isSeen(y) {
    return y >= TOP - LANE && y <= this.chart.height;
  }

  drawLanes() {
    const { chart, pen } = this;
    pen.fillStyle = this.colours.band;
    for (let script = 1; script <= chart.lanes.length; script += 2) {
      const y = chart.laneY(script);
      if (this.isSeen(y)) pen.fillRect(chart.left, Math.max(y, TOP), chart.width, LANE);
    }
  }

  // Those that didn't end well are drawn over the others.
  drawHandlers() {
    this.chart.lanes.forEach((lane, number) => {
      const y = this.chart.laneY(number + 1);
      if (!this.isSeen(y)) return;
      this.drawLane(lane, y);
      this.drawLane(this.bad[number], y);
    });
  }

  // Draws those handlers of a list that are seen: of the ones that begin in one pixel the first.
  drawLane(list, y) {
    const { chart } = this;
    const last = chart.lineAt(chart.width);
    const begin = it => chart.scene.handlers.begins[list[it]];
    let at = Math.max(0, lowest(list.length, chart.from, begin) - 1);
    while (at < list.length && begin(at) <= last) {
      const x = chart.xOf(begin(at));
      const right = Math.max(chart.xOf(chart.endOf(list[at])) - 1, x + 1);
      this.drawHandler(list[at], x, right, y);
      at = Math.max(at + 1, lowest(list.length, chart.lineAt(right), begin));
    }
  }

  drawHandler(handler, x, right, y) {
    const { chart, pen } = this;
    const { begins, endings } = chart.scene.handlers;
    const ending = { [STOPPED]: "fault", [CUT]: "cut" }[endings[handler]] ?? "done";
    pen.fillStyle = this.colours[ending];
    pen.fillRect(x, y + 6, right - x, LANE - 12);
    if (begins[handler] === chart.picked) {
      pen.strokeStyle = this.colours.text;
      pen.lineWidth = 2;
      pen.strokeRect(x, y + 5, right - x, LANE - 10);
      pen.lineWidth = 1;
    }
    if (right - x <= 26) return;
    pen.fillStyle = ending === "done" ? this.colours.on : this.colours.ground;
    const left = Math.max(x, chart.left);
    pen.fillText(fitting(chart.scene.entry(begins[handler]), right - left - 8), left + 4, y + LANE / 2);
  }

  // Arrows are drawn where there are few enough of them to be seen.
  drawArrows() {
    const { chart } = this;
    const { arrows } = chart.scene;
    const last = chart.lineAt(chart.width);
    const seen = [];
    for (let at = 0; at < arrows.length; at += 2) {
      const start = arrows[at] < 0 ? -arrows[at] - 1 : arrows[at];
      if (arrows[at + 1] < chart.from || start > last) continue;
      seen.push(at);
      if (seen.length > MOST_ARROWS) return;
    }
    this.pen.strokeStyle = this.pen.fillStyle = this.colours.said;
    for (const at of seen) this.drawArrow(arrows[at], arrows[at + 1]);
  }

  drawArrow(source, target) {
    const { chart, pen } = this;
    const { numbers } = chart.scene.journal;
    const x = chart.xOf(source < 0 ? -source - 1 : source + 0.5);
    const y = source < 0 ? 36 : chart.laneY(numbers[source]) + LANE / 2;
    const [right, below] = [chart.xOf(target), chart.laneY(numbers[target]) + LANE / 2];
    const bend = Math.max(10, (right - x) / 2);
    pen.beginPath();
    pen.moveTo(x, y);
    pen.bezierCurveTo(x + bend, y, right - bend, below, right, below);
    pen.stroke();
    pen.beginPath();
    pen.moveTo(right, below);
    pen.lineTo(right - 6, below - 4);
    pen.lineTo(right - 6, below + 4);
    pen.fill();
  }

  // Where lines are narrow only what went wrong is marked, once in each pixel of a lane.
  drawMarks() {
    const { chart } = this;
    const { numbers } = chart.scene.journal;
    const first = Math.max(0, Math.floor(chart.from));
    const last = Math.min(chart.total, Math.ceil(chart.lineAt(chart.width)));
    this.pen.textAlign = "center";
    if (chart.scale > 5) {
      for (let line = first; line < last; line++) this.drawMark(line);
      return;
    }
    const drawn = new Map();
    for (let at = lowest(this.lost.length, first, it => this.lost[it]); this.lost[at] < last; at++) {
      const [line, x] = [this.lost[at], chart.xOf(this.lost[at])];
      if (x - (drawn.get(numbers[line]) ?? -Infinity) < 1) continue;
      drawn.set(numbers[line], x);
      this.drawMark(line);
    }
  }

  drawMark(line) {
    const { chart, pen } = this;
    const { kinds, numbers } = chart.scene.journal;
    const [sort, sign] = MARKS.get(kinds[line]) ?? [];
    if (!sort) return;
    pen.fillStyle = this.colours[sort];
    pen.fillText(sign, chart.xOf(line + 0.5), chart.laneY(numbers[line]) + (sort === "said" ? 4 : LANE / 2));
  }

  // A crossing is drawn in the lanes of its object's scripts.
  drawCrossings() {
    const { chart, pen } = this;
    pen.textAlign = "center";
    pen.fillStyle = this.colours.mark;
    pen.font = "bold 17px system-ui, sans-serif";
    const last = chart.lineAt(chart.width);
    const first = lowest(chart.crossings.length, chart.from, at => chart.crossings[at].place);
    for (const { place, object } of chart.crossings.slice(first)) {
      if (place > last) break;
      chart.scene.scripts.forEach((script, at) => {
        if (script.prim.object !== object) return;
        pen.fillRect(chart.xOf(place) - 1, chart.laneY(at + 1) + 2, 2, LANE - 4);
        pen.fillText("\u27a1", chart.xOf(place), chart.laneY(at + 1) + LANE / 2);
      });
    }
  }

  drawNames() {
    const { chart, pen } = this;
    pen.fillStyle = this.colours.ground;
    pen.fillRect(0, 0, chart.left, chart.height);
    pen.strokeStyle = this.colours.line;
    this.drawLine(chart.left, 0, chart.left, chart.height);
    this.drawLine(0, TOP, chart.width, TOP);
    pen.fillStyle = this.colours.faint;
    pen.fillText(fitting("clock and steps", chart.left - 12), 10, 22);
    for (let script = 1; script <= chart.lanes.length; script++) {
      const y = chart.laneY(script);
      if (y >= TOP - 4 && y <= chart.height) this.drawName(script, y);
    }
  }

  drawName(script, y) {
    const { chart, pen } = this;
    const owner = chart.scene.owner(script);
    pen.fillStyle = this.colours.text;
    const name = `${script} ${chart.scene.names.script(script)}`;
    pen.fillText(fitting(name, chart.left - 14), 10, y + (owner ? 10 : LANE / 2));
    if (!owner) return;
    pen.fillStyle = this.colours.faint;
    pen.font = "10px system-ui, sans-serif";
    pen.fillText(fitting(owner, chart.left - 4), 20, y + 22);
    pen.font = FONT;
  }
}
