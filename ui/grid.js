// The grid of runs by tasks, the newest run at the right. It is one stop for the Tab key; arrows move in it.

import { h, memo, s } from "./dom.js";
import { lasting, short, took } from "./format.js";
import { runTitle } from "./bars.js";
import { labelOf, nameOf } from "./states.js";

const HIGH = 48, EACH = 4;

const SIGNS = { failed: "M3 3l6 6M9 3l-6 6", running: "M4 2.5l5.5 3.5-5.5 3.5z", queued: "M3 6h6", success: "" };

function runHead(run, at, of, longest, now, state) {
  const tall = run.state === "queued" ? 4 : Math.max(4, Math.round((HIGH * (took(run, now) || 0)) / longest));
  const isLabelled = (of - 1 - at) % EACH === 0;
  return h("th", { key: run.dag_run_id, scope: "col", role: "columnheader", class: `run${state.isChosen ? " is-chosen" : ""}`, tabindex: state.isActive
    ? "0" : "-1", title: runTitle(run, now), "aria-selected": String(state.isChosen) },
    h("span", { class: "unseen" }, `${run.dag_run_id}: ${labelOf(run.state)}`),
    s("svg", { class: "bars", width: 16, height: HIGH + 14, viewBox: `0 0 16 ${HIGH + 14}`, "aria-hidden": "true" },
      s("rect", { class: `bar is-${nameOf(run.state)}`, x: 2.5, y: HIGH - tall + 0.5, width: 11, height: Math.max(1, tall - 1), rx: 2 }),
      s("path", { class: `sign is-${nameOf(run.state)}`, transform: `translate(2 ${HIGH + 1})`, d: SIGNS[run.state] || "" })),
    run.run_type === "manual" ? h("span", { class: "manual", "aria-hidden": "true" }) : null,
    h("span", { class: `at${at < 2 ? " is-first" : ""}`, "aria-hidden": "true" },
      isLabelled ? short(run.logical_date, now).replace(/^\d{4}-/, "").replace(/:\d\d$/, (it) => (short(run.logical_date, now).length > 8 ? "" : it)) : ""));
}

function cell(run, row, task, isChosen, isActive) {
  const words = `${task.task_id} in ${run.dag_run_id}: ${labelOf(row && row.state)}${row && row.try_number > 1 ? `, try ${row.try_number}` : ""}`;
  return h("td", { key: run.dag_run_id, role: "gridcell", class: `cell is-${nameOf(row ? row.state : undefined)}${isChosen ? " is-chosen" : ""}`,
    tabindex: isActive ? "0" : "-1", title: words, "aria-selected": String(isChosen) });
}

function taskRow(task, runs, rowOf, chosen, active) {
  const chosenRun = chosen.task === task.task_id ? chosen.run || "" : null, activeRun = active.task === task.task_id ? active.run : null;
  const states = runs.map((run) => {
    const row = rowOf(run, task);
    return row ? `${row.state} ${row.try_number}` : "";
  });
  const inColumn = chosen.run && !chosen.task ? chosen.run : null;
  return memo(task.task_id, [task, chosenRun, activeRun, inColumn, ...runs.map((it) => it.dag_run_id), ...states], () => h("tr", { role: "row" },
    h("th", { scope: "row", role: "rowheader", class: `task${chosenRun === "" ? " is-chosen" : ""}`, tabindex: activeRun === "" ? "0" : "-1",
      title: task.task_id }, h("span", null, task.task_id)),
    runs.map((run) => cell(run, rowOf(run, task), task, chosenRun === run.dag_run_id || inColumn === run.dag_run_id, activeRun === run.dag_run_id))));
}

/** Where an event happened: which run and which task, "" for the heads. */
function placeOf(event, runs, tasks) {
  const it = event.target.closest("th, td"), line = it && it.parentElement;
  if (!it || !line.closest("table.grid")) return null;
  const isHead = line.parentElement.tagName === "THEAD", column = it.cellIndex - 1;
  if (column < 0) return isHead ? null : { run: "", task: tasks[line.rowIndex - 1].task_id };
  return runs[column] ? { run: runs[column].dag_run_id, task: isHead ? "" : tasks[line.rowIndex - 1].task_id } : null;
}

function moved(key, { run, task }, runs, tasks) {
  const column = runs.findIndex((it) => it.dag_run_id === run), line = tasks.findIndex((it) => it.task_id === task);
  const at = { column, line }, last = runs.length - 1;
  const steps = {
    ArrowLeft: () => (at.column -= 1), ArrowRight: () => (at.column += 1), ArrowUp: () => (at.line -= 1), ArrowDown: () => (at.line += 1),
    Home: () => (at.column = 0), End: () => (at.column = last), PageUp: () => (at.line -= 10), PageDown: () => (at.line += 10), Escape: () => Object.assign(at,
      { column: last, line: -1 }),
  };
  if (!steps[key]) return null;
  steps[key]();
  at.column = Math.max(-1, Math.min(at.column, last));
  at.line = Math.max(-1, Math.min(at.line, tasks.length - 1));
  if (at.column < 0 && at.line < 0) at.line = 0;
  return { run: at.column < 0 ? "" : runs[at.column].dag_run_id, task: at.line < 0 ? "" : tasks[at.line].task_id };
}

/** `shown` has the runs, the tasks, rowOf(run, task), what is chosen, and choose({run, task}); `state` keeps the place of the keyboard. */
export function grid(shown, state, now = Date.now()) {
  const { runs, tasks, rowOf, chosen, choose, update } = shown;
  const isThere = (it) => it && (it.run === "" || runs.some((run) => run.dag_run_id === it.run)) && (it.task === "" || tasks.some((task) => task.task_id === it.task)) && (it.run !== "" || it.task !== "");
  if (!isThere(state.active)) state.active = { run: runs[runs.length - 1].dag_run_id, task: tasks.length ? tasks[0].task_id : "" };
  const longest = Math.max(1, ...runs.map((it) => took(it, now) || 0));
  const focus = (table, place) => {
    state.active = place;
    update();
    const line = place.task === "" ? 0 : tasks.findIndex((it) => it.task_id === place.task) + 1, column = place.run === "" ? 0 : runs.findIndex((it) => it.dag_run_id === place.run) + 1;
    const it = table.rows[line].cells[column];
    it.focus();
    it.scrollIntoView({ block: "nearest", inline: "nearest" });
  };
  const click = (event) => {
    const place = placeOf(event, runs, tasks);
    if (!place) return;
    state.active = place;
    choose(place);
  };
  const press = (event) => {
    const place = placeOf(event, runs, tasks);
    if (!place || event.ctrlKey || event.altKey || event.metaKey) return;
    const next = moved(event.key, place, runs, tasks);
    if (next) focus(event.currentTarget, next);
    else if (event.key === "Enter" || event.key === " ") choose(place);
    else return;
    event.preventDefault();
  };
  const toEnd = (element) => (element.scrollLeft = element.scrollWidth);
  return h("div", { class: "scroll grid", made: toEnd },
    h("table", { class: "grid", role: "grid", "aria-label": "Runs by tasks, the newest run at the right", onclick: click, onkeydown: press },
      h("thead", null, h("tr", { role: "row" },
        h("td", { class: "corner" }, h("span", { class: "most", title: "How long the longest of these runs took" }, longest > 1 ? lasting(longest) : "")),
        runs.map((run, at) => runHead(run, at, runs.length, longest, now,
          { isChosen: chosen.run === run.dag_run_id, isActive: state.active.run === run.dag_run_id && state.active.task === "" })))),
      h("tbody", null, tasks.map((task) => taskRow(task, runs, rowOf, chosen, state.active)))));
}
