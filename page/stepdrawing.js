// Draws the steps of a world and the clock, above the lanes of a chart.
import { TOP } from "./chart.js";

const CHARACTER = 6.5;

// As much of a text as has room.
export function fitting(text, room) {
  if (room < 14) return "";
  const most = Math.floor(room / CHARACTER);
  return text.length > most ? text.slice(0, Math.max(1, most - 1)) + "\u2026" : text;
}

export class Steps {
  constructor(drawing) {
    Object.assign(this, { drawing, chart: drawing.chart });
  }

  draw() {
    const { chart } = this;
    let [right, drawn] = [chart.left, -Infinity];
    for (let at = Math.max(0, chart.groupAt(Math.ceil(chart.from) - 1)); at < chart.groups.length; at++) {
      const x = Math.max(chart.xOf(chart.groupPlace(at)), chart.left);
      if (x > chart.width) break;
      const [mark, hasText] = [chart.groupMarks[at], x >= right];
      if (x - drawn < 6 && !mark && !hasText) continue;
      drawn = x;
      this.drawStepLine(x, mark, hasText);
      if (hasText) right = this.drawStepText(at, x, mark);
    }
  }

  drawStepLine(x, mark, hasText) {
    const head = mark ? 0 : hasText ? 22 : TOP;
    for (const [top, low, isMark] of [[head, TOP, mark > 0], [TOP, this.chart.height, mark > 1]]) {
      this.drawing.pen.strokeStyle = isMark ? this.drawing.colours.mark : this.drawing.colours.line;
      this.drawing.drawLine(x, top, x, low);
    }
  }

  // Draws the texts of a group, and answers up to where they go.
  drawStepText(at, x, mark) {
    const { chart, drawing: { pen } } = this;
    const isLast = at + 1 >= chart.groups.length;
    const room = Math.max((isLast ? chart.width : chart.xOf(chart.groupPlace(at + 1))) - x, 60);
    const said = fitting(chart.groupTexts(at).join("; "), Math.min(room, 320) - 8);
    pen.fillStyle = mark ? this.drawing.colours.mark : this.drawing.colours.step;
    pen.fillText(said, x + 3, 30);
    pen.fillStyle = this.drawing.colours.faint;
    pen.fillText(chart.groupClock(at), x + 3, 12);
    return Math.min(x + Math.max(60, pen.measureText(said).width + 12), x + room);
  }
}
