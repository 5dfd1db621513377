// A list of tabs: arrows, Home and End go from one to another, and only the chosen one is in the order of the Tab key.

export class TabList {
  // `choose` is called with a tab's number.
  constructor(element, choose) {
    Object.assign(this, { element, choose });
    element.addEventListener("keydown", event => this.key(event));
  }

  // Tabs with a name, a title, the id of their panel and their own.
  show(tabs, chosen) {
    const hadFocus = this.element.contains(document.activeElement);
    this.element.replaceChildren(...tabs.map((it, at) => this.made(it, at, at === chosen)));
    if (hadFocus) this.element.children[chosen]?.focus();
  }

  made({ name, title, panel, id }, at, isChosen) {
    const tab = document.createElement("button");
    Object.assign(tab, { textContent: name, role: "tab", id, ariaSelected: `${isChosen}` });
    tab.tabIndex = isChosen ? 0 : -1;
    if (title) tab.title = title;
    tab.setAttribute("aria-controls", panel);
    tab.addEventListener("click", () => this.choose(at));
    return tab;
  }

  key(event) {
    const tabs = [...this.element.children];
    const at = tabs.indexOf(document.activeElement);
    const to = { ArrowRight: at + 1, ArrowLeft: at - 1, Home: 0, End: tabs.length - 1 }[event.key];
    if (at < 0 || to === undefined) return;
    event.preventDefault();
    this.choose((to + tabs.length) % tabs.length);
    this.element.children[(to + tabs.length) % tabs.length].focus();
  }
}
