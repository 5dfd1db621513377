// Rules of accessibility, over the elements of a document: names, roles, the order of the Tab key, and contrast. Its
// value is a function that answers what breaks a rule.
(document => {
  const MOST_TEXT = 4.5;
  const MOST_EDGE = 3;
  const NAMED = "button, input, select, textarea, iframe, fieldset, [role=tab], [role=tabpanel], [role=tablist], " +
    "[role=application], [role=region], [role=listbox], [role=radiogroup], [role=group], [role=search]";
  const found = [];
  const add = (rule, element, more = "") => found.push(`${rule}: ${described(element)} ${more}`.trim());
  const front = it => (it.textContent ?? "").trim().slice(0, 30);
  const described = it => (it.id ? `#${it.id}` : `${it.tagName.toLowerCase()} ${front(it)}`);
  const all = selector => [...document.querySelectorAll(selector)];
  const styleOf = it => document.defaultView.getComputedStyle(it);
  const isSeen = it => it.checkVisibility({ visibilityProperty: true }) && it.getClientRects().length > 0;

  const textOf = id => document.getElementById(id)?.textContent.trim() ?? "";
  function nameOf(it) {
    const labelled = (it.getAttribute("aria-labelledby") ?? "").split(" ").map(textOf).join(" ").trim();
    const label = [...(it.labels ?? [])].map(one => one.textContent.trim()).join(" ");
    const legend = it.querySelector(":scope > legend")?.textContent.trim();
    const own = ["BUTTON", "OPTION"].includes(it.tagName) ? it.textContent.trim() : "";
    return labelled || (it.getAttribute("aria-label") ?? "").trim() || label || legend || own || it.title;
  }

  function checkNames() {
    for (const it of all(NAMED)) {
      const isForeign = it.getAttribute("role") === "group" && !it.hasAttribute("aria-label");
      if (isSeen(it) && !isForeign && !nameOf(it)) add("no name", it);
    }
    const ids = all("[id]").map(it => it.id);
    for (const id of new Set(ids.filter((it, at) => ids.indexOf(it) !== at))) found.push(`two elements are #${id}`);
    for (const name of ["aria-controls", "aria-labelledby", "aria-describedby", "aria-activedescendant"]) {
      for (const it of all(`[${name}]`)) {
        for (const id of it.getAttribute(name).split(" ")) {
          if (!document.getElementById(id)) add(`${name} to nothing`, it, id);
        }
      }
    }
  }

  function checkRoles() {
    if (!document.documentElement.lang) found.push("the document has no language");
    if (!document.title) found.push("the document has no title");
    if (all("h1").length !== 1) found.push(`the document has ${all("h1").length} first headings`);
    for (const list of all("[role=tablist]")) {
      const tabs = [...list.children];
      if (tabs.some(it => it.getAttribute("role") !== "tab")) add("other than tabs in", list);
      const isChosen = it => it.getAttribute("aria-selected") === "true";
      if (tabs.filter(isChosen).length !== 1) add("not one tab is chosen in", list);
      if (tabs.filter(it => it.tabIndex === 0).length !== 1) add("not one tab is in the order of Tab in", list);
      for (const it of tabs) {
        const panel = document.getElementById(it.getAttribute("aria-controls"));
        if (panel?.getAttribute("role") !== "tabpanel") add("no panel", it);
      }
    }
    for (const it of all("[role=option]")) if (!it.closest("[role=listbox]")) add("an option alone", it);
    for (const it of all("[tabindex]")) if (it.tabIndex > 0) add("a place of its own in the order of Tab", it);
    for (const it of all("[aria-hidden=true]")) {
      if (it.querySelector("button, input, textarea, [tabindex]")) add("hidden, but reached", it);
    }
  }

  function scrolled() {
    for (const it of all("*")) {
      const { overflowX, overflowY } = styleOf(it);
      const isCut = it.scrollHeight > it.clientHeight + 2 && /auto|scroll/.test(overflowY + overflowX);
      const isReached = it.tabIndex >= 0 || it.querySelector("button, textarea, input, summary, [tabindex]");
      if (isSeen(it) && isCut && !isReached && it !== document.body) add("what is scrolled isn't reached by keys", it);
    }
  }

  // Colours, as red, green, blue and how much of them covers what is below.
  function colourOf(text) {
    const numbers = (text.match(/[\d.]+/g) ?? []).map(Number);
    return numbers.length < 3 ? [0, 0, 0, 0] : [...numbers.slice(0, 3), numbers[3] ?? 1];
  }
  function groundOf(it) {
    for (let at = it; at; at = at.parentElement) {
      const colour = colourOf(styleOf(at).backgroundColor);
      if (colour[3] > 0.99) return colour;
    }
    const isDark = document.defaultView.matchMedia("(prefers-color-scheme: dark)").matches;
    return isDark ? [0, 0, 0, 1] : [255, 255, 255, 1];
  }
  function brightness([red, green, blue]) {
    const linear = it => (it <= 0.04045 ? it / 12.92 : ((it + 0.055) / 1.055) ** 2.4);
    const [r, g, b] = [red, green, blue].map(it => linear(it / 255));
    return 0.2126 * r + 0.7152 * g + 0.0722 * b;
  }
  function contrast(one, other) {
    const [low, high] = [brightness(one), brightness(other)].sort((a, b) => a - b);
    return (high + 0.05) / (low + 0.05);
  }
  const isText = node => node.nodeType === 3 && node.data.trim() !== "" && node.data !== "\u200b";
  const hasText = it => [...it.childNodes].some(isText);

  function checkContrast() {
    for (const it of all("body *")) {
      if (!isSeen(it) || it.matches(":disabled, #sheet textarea, option")) continue;
      const style = styleOf(it);
      if (hasText(it) || it.matches("input, textarea, select")) {
        const ratio = contrast(colourOf(style.color), groundOf(it));
        if (ratio < MOST_TEXT) add("text", it, `${ratio.toFixed(2)} ${style.color}`);
      }
      const hasEdge = it.matches("button, input:not([type=radio]), select, textarea, #editor");
      if (hasEdge && parseFloat(style.borderTopWidth) > 0) {
        const ratio = contrast(colourOf(style.borderTopColor), groundOf(it.parentElement));
        if (ratio < MOST_EDGE) add("edge", it, `${ratio.toFixed(2)} ${style.borderTopColor}`);
      }
    }
  }

  // What a canvas is drawn with: colours by their names, in pairs.
  function checkDrawing() {
    const style = styleOf(document.documentElement);
    const hex = name => {
      const text = style.getPropertyValue(`--${name}`).trim().slice(1);
      const long = text.length === 3 ? [...text].map(it => it + it).join("") : text;
      return [0, 2, 4].map(it => parseInt(long.slice(it, it + 2), 16));
    };
    const pairs = [["on", "done"], ["ground", "fault"], ["ground", "cut"], ["text", "ground"], ["faint", "ground"],
      ["text", "band"], ["step", "ground"], ["mark", "ground"]];
    for (const [one, other] of pairs) {
      const ratio = contrast(hex(one), hex(other));
      if (ratio < MOST_TEXT) found.push(`drawn text: ${one} on ${other} ${ratio.toFixed(2)}`);
    }
    for (const name of ["done", "fault", "cut", "said", "mark"]) {
      const ratio = contrast(hex(name), hex("band"));
      if (ratio < MOST_EDGE) found.push(`drawn mark: ${name} ${ratio.toFixed(2)}`);
    }
  }

  checkNames();
  checkRoles();
  scrolled();
  checkContrast();
  if (document.getElementById("canvas")) checkDrawing();
  return [...new Set(found)];
})
