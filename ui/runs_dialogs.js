// What may be done to runs: trigger, backfill, mark, clear, delete. A clear shows first what it would clear; a delete asks.

import { h } from "./dom.js";
import { path, v1 } from "./api.js";
import { count } from "./format.js";
import { done } from "./dialog.js";
import { button, field } from "./widgets.js";

const SHOWN = 200;

export function triggerDialog(app, id) {
  const act = async ({ name, date }) => {
    const body = {};
    if (name.trim()) body.dag_run_id = name.trim();
    if (date.trim()) body.logical_date = date.trim();
    const came = await done(app, "POST", v1("dags", id, "dagRuns"), body, (it) => `${id}: the run ${it.json.dag_run_id} is queued (entry ${it.seq}).`);
    if (app.view.triggered) app.view.triggered(came.json);
    return true;
  };
  const content = h("div", null,
    h("p", null, "A queued run with an instance for each task is added, also if the DAG is paused; a paused DAG starts none."),
    field("Run id", h("input", { name: "name", maxlength: 250, autofocus: true, placeholder: "manual__ and the logical date" }),
      "optional: letters, digits and _ - . ~ : +"),
    field("Logical date", h("input", { name: "date", maxlength: 40, placeholder: "now" }), "optional, with its offset: 2026-11-30T06:00:00Z"));
  app.dialogs.open(`Trigger ${id}`, (shown) => app.dialogs.form(shown, "Trigger", act, content));
}

/** The runs of a range of dates. The last of the new ones is chosen, so that the view shows them. */
export function backfillDialog(app, id) {
  const said = (it) => (it.json.total_entries
    ? `${id}: ${count(it.json.total_entries, "run")} ${it.json.total_entries === 1 ? "is" : "are"} queued (entry ${it.seq}).`
    : `${id}: no run is missing between these dates.`);
  const act = async ({ start, end }) => {
    const came = await done(app, "POST", `/own${path("dags", id, "backfills")}`, { start_date: start.trim(), end_date: end.trim() }, said);
    const [last] = came.json.dag_runs.slice(-1);
    if (last && app.view.triggered) app.view.triggered(last);
    return true;
  };
  const date = (label, name, hint, more) => field(label, h("input", { name, maxlength: 40, required: true, ...more }), hint);
  const content = h("div", null,
    h("p", null, "A queued run is added for each date of the schedule in the range that has none.",
      " A range has 100 dates at most. A paused DAG starts none of the runs."),
    date("Start date", "start", "the first date, with its offset: 2026-11-24T00:00:00Z", { autofocus: true }),
    date("End date", "end", "the last date, which is in the range: 2026-11-30T00:00:00Z"));
  app.dialogs.open(`Backfill ${id}`, (shown) => app.dialogs.form(shown, "Backfill", act, content));
}

const MARKS = {
  success: ["Mark success", "The run and each of its task instances become a success."],
  failed: ["Mark failed", "The run has failed. Its running task instances fail, and the others that have not ended are skipped."],
  queued: ["Queue again", "The run waits again, without start and end. Its task instances stay as they are."],
};

/** The buttons for what the user may do to a run. */
export function runActions(app, run) {
  const { permits } = app, id = run.dag_id, found = [];
  if (permits.marks(id)) {
    found.push(button("Clear …", () => clearRunDialog(app, run), { class: "first" }));
    for (const [state, [words]] of Object.entries(MARKS)) if (state !== run.state || state === "success") found.push(button(`${words} …`,
      () => markDialog(app, run, state)));
  }
  if (permits.deletes(id)) found.push(button("Delete …", () => deleteDialog(app, run), { class: "danger" }));
  return found.length ? h("div", { class: "actions", role: "group", "aria-label": "What may be done to this run" }, found) : null;
}

export function markDialog(app, run, state) {
  const [words, meaning] = MARKS[state];
  const act = async () => {
    await done(app, "PATCH", v1("dags", run.dag_id, "dagRuns", run.dag_run_id), { state }, (it) => `${run.dag_run_id} is ${it.json.state}.`);
    if (app.view.touched) app.view.touched(run.dag_run_id);
    return true;
  };
  app.dialogs.open(`${words}: ${run.dag_run_id}`, (shown) => app.dialogs.form(shown, words, act, h("p", null, meaning)));
}

export function deleteDialog(app, run) {
  const act = async () => {
    await done(app, "DELETE", v1("dags", run.dag_id, "dagRuns", run.dag_run_id), undefined, `${run.dag_run_id} is deleted.`);
    if (app.view.deleted) app.view.deleted(run);
    return true;
  };
  const words = [`Delete the run ${run.dag_run_id} of ${run.dag_id}, with its task instances?`,
    "This cannot be undone. What the event log says of the run stays."];
  app.dialogs.ask("Delete a run", words, "Delete the run", act);
}

// ---- Clears ----

/** The result of a dry run: what would be cleared, by run. */
function found(rows) {
  if (!rows.length) return h("p", null, "Nothing would be cleared.");
  const shown = rows.slice(0, SHOWN);
  return h("div", { class: "dry" },
    h("p", null, `${count(rows.length, "task instance")} would lose ${rows.length === 1 ? "its" : "their"} state and run again:`),
    h("ul", null, shown.map((it) => h("li", { key: `${it.dag_run_id} ${it.task_id}` }, h("strong", null, it.task_id), ` in ${it.dag_run_id}`))),
    rows.length > SHOWN ? h("p", { class: "faint" }, `and ${rows.length - SHOWN} more`) : null);
}

/** A clear in two steps: the form, whose answer is the dry run, and then the clear itself. `asked` makes target and body of the form's values. */
function clearDialog(app, title, content, asked, touched) {
  const state = { dry: null, values: null };
  const act = async (values) => {
    if (state.dry === null) {
      const { target, body } = asked(values);
      state.values = values;
      state.dry = (await app.api.ask("POST", target, { ...body, dry_run: true })).json.task_instances;
      return false;
    }
    const { target, body } = asked(state.values);
    await done(app, "POST", target, { ...body, dry_run: false }, (it) => `${count(it.json.task_instances.length, "task instance")} cleared.`);
    for (const run of new Set(state.dry.map((it) => it.dag_run_id))) if (app.view.touched) app.view.touched(run);
    return true;
  };
  const body = () => (state.dry === null ? content : h("div", { key: "dry" }, found(state.dry), button("Choose again", () => {
    state.dry = null;
    app.update();
  }, { class: "plain" })));
  const words = () => (state.dry === null ? "Show what would be cleared" : `Clear ${count(state.dry.length, "task instance")}`);
  return app.dialogs.open(title, (shown) => app.dialogs.form(shown, words(), act, body(), { isDisabled: state.dry !== null && !state.dry.length }));
}

export function clearRunDialog(app, run) {
  const id = run.dag_id;
  const mayChoose = app.permits.clearsTasks(id);
  const choices = mayChoose ? h("fieldset", null, h("legend", null, "Which task instances"),
    h("label", null, h("input", { type: "radio", name: "which", value: "all", checked: true }), " all of this run"),
    h("label", null, h("input", { type: "radio", name: "which", value: "failed" }), " only those that are failed or upstream failed")) : null;
  const content = h("div", { key: "form" }, h("p", null, "Cleared task instances have no state and run again. A run that has ended is queued again."), choices);
  clearDialog(app, `Clear ${run.dag_run_id}`, content, ({ which }) => (which === "failed"
    ? { target: v1("dags", id, "clearTaskInstances"), body: { dag_run_id: run.dag_run_id, only_failed: true } }
    : { target: v1("dags", id, "dagRuns", run.dag_run_id, "clear"), body: {} }));
}

/** All tasks below some, themselves too, in the order of the definition. */
export function downstream(tasks, ids) {
  const below = new Map(tasks.map((it) => [it.task_id, it.downstream_task_ids])), seen = new Set(ids), left = [...ids];
  while (left.length) {
    for (const it of below.get(left.pop()) || []) {
      if (seen.has(it)) continue;
      seen.add(it);
      left.push(it);
    }
  }
  return tasks.map((it) => it.task_id).filter((it) => seen.has(it));
}

export function clearTaskDialog(app, id, runId, taskId, tasks) {
  const box = (name, checked, words) => h("label", null, h("input", { type: "checkbox", name, checked }), ` ${words}`);
  const content = h("div", { key: "form" },
    h("p", null, "Cleared task instances have no state and run again. A run that has ended is queued again."),
    h("fieldset", null, h("legend", null, "Which task instances"),
      box("below", true, "also those downstream of it"),
      box("failed", false, "only those that are failed or upstream failed"),
      box("runs", false, "in all runs of the DAG")));
  clearDialog(app, `Clear ${taskId}`, content, ({ below, failed, runs }) => ({
    target: v1("dags", id, "clearTaskInstances"),
    body: { task_ids: below ? downstream(tasks, [taskId]) : [taskId], only_failed: Boolean(failed), ...(runs ? {} : { dag_run_id: runId }) },
  }));
}
