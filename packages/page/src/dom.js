// Elements of the page. All text goes in as text, never as markup.

/** The element of an id. */
export const byId = (id) => document.getElementById(id);

/** Makes an element with attributes; a child is an element or a text, and what is undefined or false is left out. */
export function make(name, attributes = {}, ...children) {
  const it = document.createElement(name);
  for (const [key, value] of Object.entries(attributes)) if (value !== undefined && value !== false) it.setAttribute(key, value === true ? "" : value);
  it.append(...children.flat().filter((child) => child !== undefined && child !== false));
  return it;
}

/** Makes an element hold these children. One that is equal to what stands in its place stays, and with it a selection or the focus. */
export function fill(element, ...children) {
  const wanted = children.flat().filter((child) => child !== undefined && child !== false);
  wanted.forEach((it, n) => {
    const node = typeof it === "string" ? document.createTextNode(it) : it, old = element.childNodes[n];
    if (!old) element.append(node);
    else if (!old.isEqualNode(node)) old.replaceWith(node);
  });
  while (element.childNodes.length > wanted.length) element.lastChild.remove();
}
