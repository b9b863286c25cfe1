// A run: its task instances with their tries, why they wait, when they ran, and what may be done to it.

import { h } from "./dom.js";
import { v1 } from "./api.js";
import { lasting, took } from "./format.js";
import { badge } from "./states.js";
import { DagData } from "./dag_data.js";
import { gantt } from "./gantt.js";
import { instancePanel, runFacts } from "./panel.js";
import { reasons } from "./reasons.js";
import { clearTaskDialog, runActions } from "./runs_dialogs.js";
import { button, dagLink, head, loading, moment, table, to, trouble } from "./widgets.js";

export class RunView {
  constructor(app, id, runId) {
    Object.assign(this, { app, id, runId, place: "dags", data: new DagData(app, id), run: null, query: {} });
  }

  take({ query }) {
    this.query = query;
  }

  title() {
    return `${this.runId} · ${this.id}`;
  }

  sources() {
    const target = v1("dags", this.id, "dagRuns", this.runId);
    const run = { key: "run", target, every: 2, apply: (json) => (this.run = json) && undefined };
    const row = this.run && this.query.task ? this.data.instance(this.runId, this.query.task) : this.waiting();
    return [run, ...this.data.sources(), ...(this.run ? this.data.instanceSources(this.run) : []), ...this.data.poolSources(row)];
  }

  /** The first task instance that waits for a pool. */
  waiting() {
    return (this.data.rows(this.runId) || []).find((it) => it.state === "scheduled");
  }

  touched() {
    this.data.touched(this.runId);
    this.app.poller.forget("run");
  }

  deleted() {
    location.hash = to(["dags", this.id]);
  }

  choose(task) {
    this.app.choose({ task: this.query.task === task ? undefined : task });
  }

  render() {
    const { app, data, run } = this, why = app.poller.error("run");
    const top = head(h("span", { class: "id" }, this.runId), h("span", null, "run of ", dagLink(this.id)));
    if (why) return h("section", null, top, trouble(why, app.me));
    if (!run) return h("section", null, top, loading());
    const rows = data.rows(this.runId), denied = app.poller.error("tasks");
    const mayRead = app.permits.readsInstances(this.id);
    const content = !mayRead ? trouble({ status: 403, detail: "missing permission Task Instances.can_read" }, app.me)
      : denied ? trouble(denied, app.me) : rows ? this.instances(rows) : loading();
    return h("section", { class: "run-view" }, top,
      h("div", { class: "panel" }, runFacts(run), runActions(app, run)), content);
  }

  instances(rows) {
    const { app, data, run, query } = this;
    const linkTo = (task) => to(["dags", this.id, "runs", this.runId], { task });
    const known = data.known(run, linkTo), chosen = rows.find((it) => it.task_id === query.task);
    const mayClear = app.permits.clearsTasks(this.id);
    const columns = [["Task", "row"], ["State", ""], ["Tries", "number"], ["Started", ""], ["Ended", ""], ["Took", "number"], ["Pool", ""], ["Why", "why"],
      ...(mayClear ? [["", "act"]] : [])];
    const lines = rows.map((row) => ({ key: row.task_id, class: row === chosen ? "is-chosen" : null, cells: [
      button(row.task_id, () => this.choose(row.task_id), { class: "plain id", "aria-pressed": String(row === chosen) }),
      badge(row.state), row.try_number, moment(row.start_date), moment(row.end_date), lasting(took(row)) || h("span", { class: "faint" }, "–"),
      row.pool_slots === 1 ? row.pool : `${row.pool} (${row.pool_slots})`,
      (reasons(row, known)[0] || []).slice(0, 1).map((it) => h("span", { class: "short" }, it)),
      ...(mayClear ? [button("Clear …", () => clearTaskDialog(app, this.id, this.runId, row.task_id, data.tasks),
        { "aria-label": `Clear ${row.task_id}` })] : []),
    ] }));
    return h("div", { class: "split" },
      h("div", { class: "left" }, h("h2", null, "Task instances"), table("Task instances", columns, lines), h("h2", null, "Gantt chart"),
        gantt(run, rows, { chosen: query.task, choose: (task) => this.choose(task) })),
      chosen ? h("aside", { class: "right", "aria-label": "What is chosen" }, instancePanel(app, chosen, known)) : null);
  }
}
