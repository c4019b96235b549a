// ---- lists in the page: of their items only those are made anew that aren't as they stand

// What a browser reads items in, before they have a place.
const mould = document.createElement("template");

/** The children of an element, each by its key and its text in HTML. What doesn't change isn't laid out again. */
class Items {
  constructor(parent) {
    Object.assign(this, {parent, pairs: [], items: new Map()});
    parent.replaceChildren();
  }

  /** Shows items by pairs of a key, which no two of them share, and a text of one element. */
  show(pairs) {
    const isAsBefore = ([key, html], place) => this.pairs[place][0] === key && this.pairs[place][1] === html;
    if (pairs.length === this.pairs.length && pairs.every(isAsBefore)) return;
    const before = this.items;
    this.pairs = pairs;
    this.items = this.made(pairs);
    for (const [key, {element}] of before) if (this.items.get(key)?.element !== element) element.remove();
    this.place();
  }

  /** The items of pairs: those that stand as they should, those that are made so, and new ones. */
  made(pairs) {
    const isOther = ([key, html]) => this.items.get(key)?.html !== html;
    const others = pairs.filter(isOther);
    mould.innerHTML = others.map(([, html]) => html).join("");
    const elements = new Map([...mould.content.children].map((element, place) => [others[place][0], element]));
    return new Map(pairs.map(([key, html]) => {
      const item = this.items.get(key), element = elements.get(key);
      if (!element) return [key, item];
      return [key, {html, element: item ? likened(item.element, element) : element}];
    }));
  }

  /** Brings the elements into their order. */
  place() {
    let next = this.parent.firstChild;
    for (const {element} of this.items.values()) {
      if (element === next) next = next.nextSibling;
      else this.parent.insertBefore(element, next);
    }
  }
}

/** What stands for an element that is to be as another one: itself, changed, or the other one in its place. */
function likened(node, wanted) {
  if (node.nodeName !== wanted.nodeName || node.childNodes.length !== wanted.childNodes.length) {
    node.replaceWith(wanted);
    return wanted;
  }
  if (node.nodeType === Node.TEXT_NODE) {
    if (node.data !== wanted.data) node.data = wanted.data;
    return node;
  }
  for (const name of node.getAttributeNames()) if (!wanted.hasAttribute(name)) node.removeAttribute(name);
  for (const {name, value} of wanted.attributes) {
    if (node.getAttribute(name) !== value) node.setAttribute(name, value);
  }
  const children = [...wanted.childNodes];
  [...node.childNodes].forEach((child, place) => likened(child, children[place]));
  return node;
}
