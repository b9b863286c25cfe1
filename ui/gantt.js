// When the tasks of a run were running: of each its last try, which is all that the API shows.

import { h, s } from "./dom.js";
import { lasting, stamp, timeOf, took } from "./format.js";
import { labelOf, mark, nameOf } from "./states.js";
import { button, empty } from "./widgets.js";

const WIDE = 1000, TICKS = 5;

function step(ms) {
  const steps = [1, 2, 5, 10, 20, 50, 100, 200, 500, 1000, 2000, 5000, 10000, 15000, 30000, 60000, 120000, 300000, 600000, 900000, 1800000, 3600000, 7200000,
    21600000, 43200000, 86400000];
  return steps.find((it) => ms / it <= TICKS) || Math.ceil(ms / TICKS / 86400000) * 86400000;
}

function span(run, rows, now) {
  const starts = [run.start_date, ...rows.map((it) => it.start_date)].map(timeOf).filter((it) => it !== null);
  if (!starts.length) return null;
  const ends = [...rows.filter((it) => it.start_date).map((it) => timeOf(it.end_date) ?? now), timeOf(run.end_date) ?? now];
  const from = Math.min(...starts), to = Math.max(from + 1, ...ends);
  return { from, to };
}

export function gantt(run, rows, { chosen, choose }, now = Date.now()) {
  const found = span(run, rows, now);
  if (!found) return empty("This run has not started.");
  const { from, to } = found, all = to - from, each = step(all);
  const x = (time) => Math.round(((time - from) / all) * WIDE * 10) / 10;
  const ticks = [];
  for (let at = 0; at <= all; at += each) ticks.push(at);
  const lines = () => ticks.map((it) => s("path", { key: it, class: "tick", d: `M${x(from + it)} 0v24`, "vector-effect": "non-scaling-stroke" }));
  const bar = (row) => {
    if (!row.start_date) return null;
    const start = x(timeOf(row.start_date)), end = x(timeOf(row.end_date) ?? now);
    return s("rect", { class: `bar is-${nameOf(row.state)}`, x: Math.min(start, WIDE - 6), y: 5, width: Math.max(6, end - start), height: 14 });
  };
  const title = (row) => (row.start_date
    ? `${row.task_id}: ${labelOf(row.state)}, from ${stamp(row.start_date)} for ${lasting(took(row, now))}` : `${row.task_id}: ${labelOf(row.state)}, not started`);
  return h("div", { class: "scroll", tabindex: "0", role: "region", "aria-label": "Gantt chart" }, h("table", { class: "gantt" },
    h("caption", null, `From ${stamp(new Date(from).toISOString())}. Of each task the last try.`),
    h("thead", null, h("tr", null, h("th", { scope: "col" }, "Task"), h("th", { scope: "col", class: "axis" }, h("span", { class: "unseen" }, "When"),
      h("span", { class: "ticks", "aria-hidden": "true" },
        ticks.map((it) => h("span", { key: it, style: { left: `${(100 * it) / all}%` } }, it ? `+${lasting(it)}` : "0")))), h("th", { scope: "col" }, "Took"))),
    h("tbody", null, rows.map((row) => h("tr", { key: row.task_id, class: chosen === row.task_id ? "is-chosen" : null },
      h("th", { scope: "row" }, button([mark(row.state), h("span", { class: "unseen" }, `${labelOf(row.state)}: `), h("span", { class: "id" }, row.task_id)],
        () => choose(row.task_id), { class: "plain", title: row.task_id, "aria-pressed": String(chosen === row.task_id) })),
      h("td", { class: "axis", title: title(row) }, s("svg",
        { class: "bars", viewBox: `0 0 ${WIDE} 24`, preserveAspectRatio: "none", width: "100%", height: 24, role: "img", "aria-label": title(row) }, lines(),
        bar(row))),
      h("td", { class: "number" }, row.start_date ? lasting(took(row, now)) : h("span", { class: "faint" }, "–")))))));
}
