// A small tree of nodes that is compared with the one before it, so that only what differs is touched in the document: focus, scroll places, selected text
// and what is being typed stay. Text is text: nothing here reads markup.

const SVG = "http://www.w3.org/2000/svg";

const flat = (children) => children.flat(Infinity).filter((it) => it !== null && it !== undefined && it !== false && it !== true);

const nodeOf = (it) => (typeof it === "object" ? it : { text: String(it) });

/** An element: its name, its properties, and its children (nodes, texts, numbers, lists of these; null and false are nothing). */
export function h(tag, properties, ...children) {
  const { key, ...props } = properties || {};
  return { tag, key, props, children: flat(children).map(nodeOf) };
}

/** An element of SVG. */
export function s(tag, properties, ...children) {
  return { ...h(tag, properties, ...children), isSvg: true };
}

/** What `make` returns, and the same as before without a call while all of `on` are the same. */
export function memo(key, on, make) {
  return { key, on, make };
}

const isSame = (a, b) => a.key === b.key && a.tag === b.tag && ("text" in a) === ("text" in b);

function settled(node, before) {
  if (!node.on || node.tag) return node;
  const isKept = before && before.on && before.on.length === node.on.length && node.on.every((it, at) => Object.is(it, before.on[at]));
  return isKept ? before : { ...node.make(), key: node.key, on: node.on };
}

function heard(event) {
  const handler = event.currentTarget.heard[event.type];
  if (handler) handler(event);
}

function setHandler(element, name, handler) {
  const type = name.slice(2).toLowerCase();
  element.heard = element.heard || {};
  if (!(type in element.heard)) element.addEventListener(type, heard);
  element.heard[type] = handler;
}

function setStyle(element, next, before) {
  for (const name of Object.keys(before || {})) if (!(name in (next || {}))) element.style.removeProperty(name);
  for (const [name, value] of Object.entries(next || {})) if (!before || before[name] !== value) element.style.setProperty(name, value);
}

function setProperty(element, name, value, before) {
  if (name === "made" || name === "autofocus") return undefined;
  if (name.startsWith("on")) return setHandler(element, name, value);
  if (name === "style") return setStyle(element, value, before);
  if (value === before) return undefined;
  if (name === "value" || name === "checked" || name === "selected" || name === "indeterminate") {
    if (element[name] !== value) element[name] = value;
    return undefined;
  }
  if (name === "href" && !String(value).startsWith("#")) throw new Error("a link leads within this page");
  if (value === null || value === undefined || value === false) element.removeAttribute(name);
  else element.setAttribute(name, value === true ? "" : String(value));
  return undefined;
}

function setProperties(element, next, before) {
  for (const name of Object.keys(before)) if (!(name in next)) setProperty(element, name, name.startsWith("on") ? undefined : null, before[name]);
  // (the value of a choice is set once its options are there)
  for (const name of Object.keys(next)) if (name !== "value") setProperty(element, name, next[name], before[name]);
}

function made(node) {
  if ("text" in node) {
    node.element = document.createTextNode(node.text);
    return node.element;
  }
  const element = node.isSvg ? document.createElementNS(SVG, node.tag) : document.createElement(node.tag);
  node.element = element;
  setProperties(element, node.props, {});
  node.children = node.children.map((it) => settled(it));
  for (const child of node.children) element.append(made(child));
  if ("value" in node.props) setProperty(element, "value", node.props.value);
  // (once it is in the document)
  if (node.props.made) queueMicrotask(() => node.props.made(element));
  if (node.props.autofocus) setTimeout(() => element.focus());
  return element;
}

function patch(before, node) {
  if (before === node) return;
  const element = before.element;
  node.element = element;
  if ("text" in node) {
    if (node.text !== before.text) element.data = node.text;
    return;
  }
  setProperties(element, node.props, before.props);
  patchChildren(element, before, node);
  if ("value" in node.props) setProperty(element, "value", node.props.value, before.props.value);
}

/** Finds for each child the one before it that it takes the place of: the same key, or the next without a key of the same kind. */
function matched(before, children) {
  const byKey = new Map(), loose = [];
  for (const it of before) {
    if (it.key === undefined) loose.push(it);
    else byKey.set(it.key, it);
  }
  let at = 0;
  return children.map((it) => {
    if (it.key !== undefined) {
      const found = byKey.get(it.key);
      if (found) byKey.delete(it.key);
      return found;
    }
    for (let look = at; look < loose.length; look++) {
      if (it.on || isSame(loose[look], it)) {
        at = look + 1;
        return loose[look];
      }
    }
    return undefined;
  });
}

function patchChildren(element, before, node) {
  const olds = matched(before.children, node.children);
  const pairs = node.children.map((it, at) => {
    const next = settled(it, olds[at]);
    return [next, olds[at] && (next === olds[at] || isSame(olds[at], next)) ? olds[at] : undefined];
  });
  node.children = pairs.map((it) => it[0]);
  const kept = new Set(pairs.map((it) => it[1]));
  for (const it of before.children) if (!kept.has(it)) it.element.remove();
  let place = element.firstChild;
  for (const [next, old] of pairs) {
    if (old) patch(old, next);
    const child = old ? next.element : made(next);
    if (child === place) place = place.nextSibling;
    else element.insertBefore(child, place);
  }
}

const roots = new WeakMap();

/** Shows a node as the only child of an element, in the place of the one that was shown there. */
export function show(element, node) {
  const next = h("root", null, node);
  patchChildren(element, roots.get(element) || h("root", null), next);
  roots.set(element, next);
}
