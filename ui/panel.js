// What is known of the run, the task or the task instance that is chosen.

import { h } from "./dom.js";
import { count, lasting, took } from "./format.js";
import { badge, hasEnded, mark, nameOf, labelOf } from "./states.js";
import { reasons, ruleWords, upstreamOf } from "./reasons.js";
import { clearTaskDialog, runActions } from "./runs_dialogs.js";
import { button, facts, moment, runLink } from "./widgets.js";

const orNone = (nodes) => (nodes.length ? nodes : h("span", { class: "faint" }, "none"));

export function runFacts(run) {
  const time = took(run);
  return facts([
    ["State", badge(run.state)],
    ["Type", run.run_type],
    ["Logical date", moment(run.logical_date, true)],
    run.data_interval_start !== run.data_interval_end && ["Interval", [moment(run.data_interval_start, true), " to ", moment(run.data_interval_end, true)]],
    ["Started", run.start_date ? moment(run.start_date, true) : "not yet"],
    ["Ended", run.end_date ? moment(run.end_date, true) : run.start_date ? "not yet" : "–"],
    time !== null && [run.end_date ? "Took" : "Runs for", lasting(time)],
  ]);
}

export function runPanel(app, run, instances) {
  const counts = new Map();
  for (const it of instances || []) counts.set(it.state, (counts.get(it.state) || 0) + 1);
  return h("div", { class: "panel", key: "run" },
    h("h2", null, "Run ", runLink(run)),
    runFacts(run),
    counts.size ? h("p", { class: "tally" },
      [...counts].map(([state, number]) => h("span", { key: nameOf(state), class: "badge" }, mark(state), ` ${number} ${labelOf(state)}`))) : null,
    runActions(app, run));
}

/** A task as it is defined. */
export function taskFacts(tasks, task, linkTo) {
  const links = (ids) => orNone(ids.map((it, at) => [at ? ", " : "", h("a", { key: it, class: "id", href: linkTo(it) }, it)]));
  return facts([
    ["Rule", h("span", { title: ruleWords(task.trigger_rule) }, task.trigger_rule)],
    ["Upstream", links(upstreamOf(tasks, task.task_id))],
    ["Downstream", links(task.downstream_task_ids)],
    ["Pool", `${task.pool} (${count(task.pool_slots, "slot")})`],
    ["Weight", task.priority_weight],
    ["Retries", task.retries],
  ]);
}

export function taskPanel(tasks, task, linkTo) {
  return h("div", { class: "panel", key: "task" }, h("h2", null, "Task ", h("span", { class: "id" }, task.task_id)), taskFacts(tasks, task, linkTo));
}

/** `known` is what reasons() takes, with `linkTo` for the tasks above and below. */
export function instancePanel(app, row, known) {
  const { tasks, run } = known, time = took(row), task = tasks.find((it) => it.task_id === row.task_id);
  const why = reasons(row, known);
  return h("div", { class: "panel", key: "instance" },
    h("h2", null, "Task ", h("span", { class: "id" }, row.task_id)),
    h("p", { class: "sub" }, "in the run ", runLink(run || row)),
    facts([
      ["State", badge(row.state)],
      ["Tries", `${row.try_number}${task && task.retries ? ` (retries: ${task.retries})` : ""}`],
      ["Started", row.start_date ? moment(row.start_date, true) : hasEnded(row.state) ? "never" : "not yet"],
      row.start_date && ["Ended", row.end_date ? moment(row.end_date, true) : "not yet"],
      time !== null && [row.end_date ? "Last try took" : "Runs for", lasting(time)],
    ]),
    why.length ? h("div", { class: "why" }, h("h3", null, hasEnded(row.state) ? "Why" : "Why it waits"), why.map((it, at) => h("p", { key: at }, it))) : null,
    task ? taskFacts(tasks, task, known.linkTo) : null,
    app.permits.clearsTasks(row.dag_id) ? h("div", { class: "actions" },
      button("Clear this task …", () => clearTaskDialog(app, row.dag_id, row.dag_run_id, row.task_id, tasks), { class: "first" })) : null);
}

export const panelHint = () => h("div", { class: "panel hint", key: "hint" },
  h("p", null,
  "Choose a square to see why it is as it is. The keys: arrows move, Enter chooses, Home and End go to the first and last run, Escape goes back to the last run."));
