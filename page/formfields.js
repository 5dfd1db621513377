// The parts of a form: fields with labels, and a button.

const made = (name, values = {}) => Object.assign(document.createElement(name), values);

function labelled(name, input) {
  const label = made("label");
  label.append(`${name} `, input);
  return label;
}

// A field with what it holds at first, and what it may be among others.
export function field(id, name, value, choices = [], type = "text") {
  const label = labelled(name, made("input", { id, name, value, type, required: true, autocomplete: "off" }));
  if (type === "number") label.lastChild.step = "any";
  if (!choices.length) return label;
  const list = made("datalist", { id: `${id}-known` });
  list.append(...choices.map(it => made("option", { value: it })));
  label.lastChild.setAttribute("list", list.id);
  label.prepend(list);
  return label;
}

// A choice among pairs of a value and a text.
export function select(id, name, choices, chosen) {
  const list = made("select", { id, name });
  list.append(...choices.map(([value, text]) => new Option(text, value)));
  if (chosen !== undefined) list.value = chosen;
  return labelled(name, list);
}

// A form, with what its button does: it answers the text that the fields' values make.
export function form(title, inputs, button, change, does = "") {
  const element = made("form", { ariaLabel: title });
  const name = made("b", { textContent: title });
  element.append(name, ...inputs, made("button", { textContent: button }));
  if (does) element.append(made("span", { textContent: does, className: "does" }));
  return { element, change };
}

export const fieldsOf = element => Object.fromEntries(new FormData(element));
