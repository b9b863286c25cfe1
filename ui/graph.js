// The graph of a DAG's tasks, with the states of a run.

import { h, memo, s } from "./dom.js";
import { labelOf, nameOf } from "./states.js";
import { HIGH, WIDE, laidOut } from "./layout.js";
import { button } from "./widgets.js";

const LETTERS = 20, MOST_EDGES = 3000;
const GLYPHS = {
  success: "M4 8.5l2.7 2.7L12 5.5", failed: "M4.5 4.5l7 7M11.5 4.5l-7 7", running: "M6 4.5l5.5 3.5-5.5 3.5z", up_for_retry: "M11.5 5.5a4.3 4.3 0 1 0 .9 3.6M11.8 2.8v3h-3",
  upstream_failed: "M8 12.5v-7M4.8 7.6L8 4.4l3.2 3.2M4.5 3h7", skipped: "M4 4.5l3.5 3.5-3.5 3.5M8.5 4.5L12 8l-3.5 3.5", queued: "M3.8 8h1.4M7.3 8h1.4M10.8 8h1.4", scheduled: "M8 3.2a4.8 4.8 0 1 0 .01 0M8 5.4V8l1.9 1.2", none: "", unread: "",
};

const cut = (text) => (text.length > LETTERS ? `${text.slice(0, LETTERS - 1)}…` : text);

function curve(points) {
  let text = `M${points[0].join(" ")}`;
  for (let at = 1; at < points.length; at++) {
    const [x0, y0] = points[at - 1], [x1, y1] = points[at], half = (x0 + x1) / 2;
    text += at % 2 ? `C${half} ${y0} ${half} ${y1} ${x1} ${y1}` : `L${x1} ${y1}`;
  }
  return text;
}

function node(it, state, tries, isChosen, choose) {
  const name = nameOf(state), words = `${it.id}${state === undefined ? "" : `: ${labelOf(state)}${tries > 1 ? `, try ${tries}` : ""}`}`;
  const press = (event) => {
    if (event.key !== "Enter" && event.key !== " ") return;
    event.preventDefault();
    choose(it.id);
  };
  return s("g", { key: it.id, class: `node is-${name}${isChosen ? " is-chosen" : ""}`, transform: `translate(${it.x} ${it.y})`, tabindex: "0", role: "button",
    "aria-label": words, "aria-pressed": String(isChosen), onclick: () => choose(it.id), onkeydown: press },
    s("title", null, words),
    s("rect", { class: "box", width: WIDE, height: HIGH, rx: 5 }),
    s("rect", { class: `plate is-${name}`, x: 8.5, y: HIGH / 2 - 7.5, width: 15, height: 15, rx: 3 }),
    s("path", { class: `glyph is-${name}`, transform: `translate(8 ${HIGH / 2 - 8})`, d: GLYPHS[name] }),
    s("text", { class: "name", x: 30, y: HIGH / 2 - 2 }, cut(it.id)),
    s("text", { class: "word", x: 30, y: HIGH / 2 + 12 }, state === undefined ? "" : labelOf(state)));
}

/** `instanceOf(task)` is the instance in the run whose states are shown, or undefined. */
export function graph({ choice, tasks, instanceOf, chosen, choose, kept, update }) {
  // (a node that stays as it is keeps its handlers, which ask for what is to be done now)
  kept.choose = choose;
  if (kept.tasks !== tasks) Object.assign(kept, { tasks, plan: laidOut(tasks) });
  const { nodes, edges, wide, high } = kept.plan, isFull = kept.isFull ?? true;
  const drawn = edges.length > MOST_EDGES ? edges.filter((it) => it.from === chosen || it.to === chosen) : edges;
  const size = isFull ? { width: wide, height: high } : { width: "100%", height: Math.min(high, 480) };
  return h("div", { class: "graph" },
    h("div", { class: "tools" }, choice, button(isFull ? "Fit to the page" : "Full size", () => {
      kept.isFull = !isFull;
      update();
    }), edges.length > MOST_EDGES ? h("span", { class: "faint" }, `${edges.length} edges: only those of the chosen task are drawn.`) : null),
    h("div", { class: "scroll", tabindex: "0", role: "region", "aria-label": "Graph of the tasks" },
      s("svg", { class: "tasks", viewBox: `0 0 ${wide} ${high}`, preserveAspectRatio: "xMidYMid meet", role: "group",
        "aria-label": `${tasks.length} tasks, from upstream at the left to downstream at the right`, ...size },
        s("defs", null, s("marker", { id: "arrow", viewBox: "0 0 8 8", refX: 7, refY: 4, markerWidth: 7, markerHeight: 7, orient: "auto" },
          s("path", { class: "tip", d: "M0 0l8 4-8 4z" }))),
        memo("edges", [kept.plan, drawn.length, chosen], () => s("g", null,
          drawn.map((it) => s("path", { key: `${it.from} ${it.to}`, class: `edge${it.from === chosen || it.to === chosen ? " is-chosen" : ""}`,
          d: curve(it.points), "marker-end": "url(#arrow)" })))),
        nodes.map((it) => {
          const row = instanceOf(it.id);
          return memo(it.id, [kept.plan, row && row.state, row && row.try_number, chosen === it.id],
            () => node(it, row && row.state, row ? row.try_number : 0, chosen === it.id, (task) => kept.choose(task)));
        }))));
}
