// Permissions as a matrix: who by which resource, with a letter for each action.

import { h } from "./dom.js";
import { ACTIONS, ITS_RUNS, ONE_DAG, RESOURCES, VERBS, split } from "./permits.js";
import { listed } from "./format.js";
import { dagLink } from "./widgets.js";

const LETTERS = { can_create: "C", can_read: "R", can_edit: "E", can_delete: "D" };

/** The actions on one resource: a letter for what is held, a dot for what is not. */
export function letters(held, actions = ACTIONS) {
  const words = actions.filter((it) => held.includes(it)).map((it) => VERBS[it]);
  return h("span", { class: "letters", role: "img", "aria-label": words.length ? listed(words) : "nothing", title: words.length ? listed(words) : "nothing" },
    actions.map((it) => h("span", { key: it, class: held.includes(it) ? "has" : "lacks", "aria-hidden": "true" }, held.includes(it) ? LETTERS[it] : "·")));
}

/** A cell for each resource, and one for single DAGs and their runs. */
export function matrixCells(permissions) {
  const by = new Map();
  for (const it of permissions) {
    const [resource, action] = split(it);
    by.set(resource, [...(by.get(resource) || []), action]);
  }
  const of = (begin) => [...by].filter(([resource]) => resource.startsWith(begin)).map(([resource, actions]) => [resource, actions,
    resource.slice(begin.length)]);
  return [...RESOURCES.map((it) => letters(by.get(it) || [])),
    h("ul", { class: "single" },
    of(ONE_DAG).map(([resource, actions, id]) => h("li", { key: resource }, letters(actions, ACTIONS.slice(1)), " ", dagLink(id))),
    of(ITS_RUNS).map(([resource, actions, id]) => h("li", { key: resource }, letters(actions), " runs of ", dagLink(id))))];
}

export const matrixColumns = [...RESOURCES.map((it) => [it, "letter"]), ["Single DAGs", ""]];

export const key = () => h("p", { class: "hint" }, h("span", { class: "letters" }, h("span", { class: "has" }, "C"), h("span", { class: "has" }, "R"),
  h("span", { class: "has" }, "E"), h("span", { class: "has" }, "D")), " create, read, edit, delete; a dot: not.");
