// The last runs of a DAG as bars: as high as they took, coloured and marked by state.

import { s } from "./dom.js";
import { count, lasting, listed, stamp, took } from "./format.js";
import { labelOf, nameOf } from "./states.js";

const WIDE = 8, GAP = 3, HIGH = 24, MARK = 7;

const MARKS = {
  failed: "M1 1l5 5M6 1l-5 5",
  running: "M1.5 0.5l4.5 3-4.5 3z",
  queued: "M1.5 3.5h4",
  success: "",
};

export function runTitle(run, now) {
  const time = took(run, now);
  return `${run.dag_run_id}: ${labelOf(run.state)}${time === null ? "" : `, ${run.end_date ? "took" : "for"} ${lasting(time)}`}, ${stamp(run.logical_date)}`;
}

/** How many runs have which state, in words. */
export function summary(runs) {
  const counts = new Map();
  for (const it of runs) counts.set(it.state, (counts.get(it.state) || 0) + 1);
  return listed([...counts].map(([state, number]) => `${number} ${labelOf(state)}`));
}

export function bars(runs, most, toRun, now = Date.now()) {
  const wide = most * (WIDE + GAP) - GAP, high = HIGH + MARK + 2;
  const longest = Math.max(1, ...runs.map((it) => took(it, now) || 0));
  const first = most - runs.length;
  const label = runs.length ? `The last ${count(runs.length, "run")}: ${summary(runs)}` : "No run yet";
  return s("svg", { class: "bars", viewBox: `0 0 ${wide} ${high}`, width: wide, height: high, role: "img", "aria-label": label },
    runs.map((run, at) => {
      const tall = run.state === "queued" ? 3 : Math.max(4, Math.round((HIGH * (took(run, now) || 0)) / longest)), x = (first + at) * (WIDE + GAP);
      return s("a", { key: run.dag_run_id, href: toRun(run), tabindex: "-1" },
        s("title", null, runTitle(run, now)),
        s("rect", { class: "hit", x, y: 0, width: WIDE + GAP, height: high }),
        s("rect", { class: `bar is-${nameOf(run.state)}`, x: x + 0.5, y: HIGH - tall + 0.5, width: WIDE - 1, height: Math.max(1, tall - 1), rx: 1.5 }),
        s("path", { class: `sign is-${nameOf(run.state)}`, transform: `translate(${x + 0.5} ${HIGH + 2})`, d: MARKS[run.state] || "" }));
    }),
    s("path", { class: "ground", d: `M0 ${HIGH + 0.5}h${wide}` }));
}
