// Rows of one height, of which only those are made that are seen: there may be hundreds of thousands.

const HEIGHT = 18;
const BEYOND = 20;

export class Rows {
  // `made` makes the element of a row from its number.
  constructor(element, made) {
    Object.assign(this, { element, made, count: 0, from: 0, to: 0 });
    this.space = document.createElement("div");
    this.shown = document.createElement("div");
    this.space.className = "space";
    this.shown.className = "shown";
    element.classList.add("rows");
    element.replaceChildren(this.space, this.shown);
    element.addEventListener("scroll", () => this.follow());
    new ResizeObserver(() => this.follow()).observe(element);
  }

  show(count, isAtTop = true) {
    this.count = count;
    this.space.style.height = `${count * HEIGHT}px`;
    if (isAtTop) this.element.scrollTop = 0;
    this.from = this.to = 0;
    this.follow(true);
  }

  // Makes the rows that are seen, and some beyond them.
  follow(isNew = false) {
    const { scrollTop, clientHeight } = this.element;
    const first = Math.floor(scrollTop / HEIGHT);
    const last = Math.min(this.count, Math.ceil((scrollTop + clientHeight) / HEIGHT));
    if (!isNew && first >= this.from && last <= this.to) return;
    this.from = Math.max(0, first - BEYOND);
    this.to = Math.min(this.count, last + BEYOND);
    const rows = [];
    for (let row = this.from; row < this.to; row++) rows.push(this.made(row));
    this.shown.style.transform = `translateY(${this.from * HEIGHT}px)`;
    this.shown.replaceChildren(...rows);
  }

  // Scrolls as little as needed so that a row is seen, with some around it.
  bring(row) {
    const { scrollTop, clientHeight } = this.element;
    const around = Math.min(3, Math.floor(clientHeight / HEIGHT / 3)) * HEIGHT;
    const top = row * HEIGHT;
    const low = top + HEIGHT + around;
    if (top < scrollTop + around) this.element.scrollTop = Math.max(0, top - around);
    else if (low > scrollTop + clientHeight) this.element.scrollTop = low - clientHeight;
    this.follow();
  }

  reveal(row) {
    this.element.scrollTop = Math.max(0, (row - 3) * HEIGHT);
    this.follow();
  }
}

// An element of a row: pieces of text, each with a class or none.
export function rowOf(className, ...pieces) {
  const row = document.createElement("div");
  row.className = `row ${className}`;
  for (const [text, sort] of pieces) {
    const piece = document.createElement("span");
    if (sort) piece.className = sort;
    piece.textContent = text.replaceAll("\n", "\u2424");
    row.append(piece);
  }
  return row;
}
