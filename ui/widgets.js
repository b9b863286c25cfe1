// What several views show alike.

import { h } from "./dom.js";
import { denial } from "./permits.js";
import { short, stamp } from "./format.js";

/** A link within the page: segments of a path, and what follows as parameters. */
export function to(segments, parameters = {}) {
  const query = new URLSearchParams(Object.entries(parameters).filter((it) => it[1] !== undefined && it[1] !== null && it[1] !== "")).toString();
  return `#/${segments.map(encodeURIComponent).join("/")}${query ? `?${query}` : ""}`;
}

export const link = (segments, ...children) => h("a", { href: to(segments) }, children);

export const dagLink = (id) => h("a", { href: to(["dags", id]), class: "id" }, id);

export const runLink = (row, ...children) => h("a", { href: to(["dags", row.dag_id, "runs", row.dag_run_id]), class: "id" },
  children.length ? children : row.dag_run_id);

export function moment(text, whole = false) {
  return text ? h("time", { datetime: text, title: `${stamp(text)} UTC` }, whole ? stamp(text) : short(text)) : h("span", { class: "faint" }, "–");
}

export function button(words, onclick, properties = {}) {
  return h("button", { type: "button", ...properties, onclick }, words);
}

/** The head of a view. */
export function head(title, ...rest) {
  return h("header", { class: "head" }, h("h1", { tabindex: "-1", id: "title" }, title), rest);
}

/** What is wrong, in words: a denial names the missing permission. */
export function trouble(why, me) {
  const words = denial(why.detail, me);
  if (words) return h("div", { class: "panel refused", role: "alert" }, h("h2", null, "Not permitted"), h("p", null, words),
    h("p", { class: "faint" }, "An administrator can give you a role that has it. ", link(["me"], "What you may do")));
  const what = why.status === 404 ? "Not found" : why.status > 0 ? `Refused (${why.status})` : "Not possible";
  return h("div", { class: "panel refused", role: "alert" }, h("h2", null, what), h("p", null, why.status > 0 ? `The server says: ${why.detail}` : why.detail));
}

export function empty(...words) {
  return h("p", { class: "empty" }, words);
}

export const loading = () => h("p", { class: "empty", "aria-busy": "true" }, "Reading …");

/** A table: columns are [head, class], rows are lists of cells with a key. */
export function table(caption, columns, rows, properties = {}) {
  const heads = columns.map(([words, name], at) => h("th", { key: at, scope: "col", class: name }, words));
  const lines = rows.map(({ key, cells, ...rest }) => h("tr", { key, ...rest }, cells.map((cell, at) => {
    const name = columns[at][1];
    return h(name === "row" ? "th" : "td", { key: at, class: name, scope: name === "row" ? "row" : null, "data-head": columns[at][0] || null }, Array.isArray(cell) && name !== "act" ? h("div", null, cell) : cell);
  })));
  return h("div", { class: "scroll", role: "region", "aria-label": caption, tabindex: "0" },
    h("table", { class: "rows", ...properties }, h("caption", { class: "unseen" }, caption), h("thead", null, h("tr", null, heads)), h("tbody", null, lines)));
}

/** Which rows are shown, and the way to the others. `at` is the first row, from 0. */
export function pager(at, size, total, linkTo, names = ["Previous", "Next"]) {
  if (total === undefined || total <= size && at === 0) return null;
  const last = Math.min(at + size, total);
  const step = (words, target, is, rel) => (is ? h("a", { href: linkTo(target), rel }, words) : h("span", { class: "faint", "aria-disabled": "true" }, words));
  return h("nav", { class: "pager", "aria-label": "Pages" },
    step(names[0], Math.max(0, at - size), at > 0, "prev"),
    h("span", null, `${(Math.min(at, total) + (total ? 1 : 0)).toLocaleString("en")}–${last.toLocaleString("en")} of ${total.toLocaleString("en")}`),
    step(names[1], at + size, last < total, "next"));
}

/** A field of a form with its label. */
export function field(label, input, hint) {
  return h("label", { class: "field" }, h("span", { class: "name" }, label), input, hint ? h("span", { class: "hint" }, hint) : null);
}

/** Names and values. */
export function facts(rows) {
  return h("dl", { class: "facts" }, rows.filter(Boolean).map(([name, value]) => h("div", { key: name }, h("dt", null, name), h("dd", null, value))));
}
