// Elements. All texts go in as text.

/** An element with attributes, listeners (by names that begin with "on") and children: elements or texts. */
function make(tag, attributes = {}, ...children) {
  const element = document.createElement(tag);
  for (const [name, value] of Object.entries(attributes)) {
    if (name.startsWith("on"))
      element.addEventListener(name.slice(2), value);
    else if (name.startsWith("aria-"))
      element.setAttribute(name, String(value));
    else if (value === true)
      element.setAttribute(name, "");
    else if (value !== false && value !== null && value !== undefined)
      element.setAttribute(name, String(value));
  }
  element.append(...children.filter((child) => child !== null && child !== undefined && child !== ""));
  return element;
}

const at = (id) => document.getElementById(id);

function show(id, ...children) {
  at(id).replaceChildren(...children.filter((child) => child !== ""));
}

/** A table with its caption, its heads, and rows of texts or elements, the first of each row being its head. */
function tableOf(caption, heads, rows) {
  const cells =
      ([first, ...rest]) => [make("th", {scope: "row"}, first), ...rest.map((cell) => make("td", {}, cell))];
  return make(
      "table", {}, make("caption", {}, caption),
      make("thead", {}, make("tr", {}, ...heads.map((head) => make("th", {scope: "col"}, head)))),
      make("tbody", {}, ...rows.map((row) => make("tr", row.attributes ?? {}, ...cells(row.cells)))));
}

/** A list of at most so many items, and a button for the others. */
function listOf(items, most, draw) {
  const list = make("ul");
  const more = make("button", {type: "button"});
  let shown = 0;
  const grow = () => {
    list.append(...items.slice(shown, shown + most).map((item) => make("li", {}, ...draw(item))));
    shown = Math.min(items.length, shown + most);
    more.hidden = shown === items.length;
    more.textContent = `${counted(items.length - shown, "more line")}`;
  };
  more.addEventListener("click", grow);
  grow();
  return items.length > most ? make("div", {}, list, more) : list;
}

/** A copy of the text for another program: by the clipboard, else by a selection. */
async function copyText(text) {
  try {
    await navigator.clipboard.writeText(text);
    return true;
  } catch {
    const area = make("textarea", {readonly: true, class: "unseen", "aria-hidden": true});
    area.value = text;
    document.body.append(area);
    area.select();
    const isDone = document.execCommand("copy");
    area.remove();
    return isDone;
  }
}
