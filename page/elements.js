// Makes elements.

export function made(name, textContent = "", className = "") {
  return Object.assign(document.createElement(name), { textContent, className });
}
