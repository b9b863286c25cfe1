// One DAG: the grid of its runs by tasks, the graph of its tasks, and the Gantt chart of a run; beside them what is known of what is chosen.

import { h } from "./dom.js";
import { v1 } from "./api.js";
import { count, schedule, stamp } from "./format.js";
import { legend, labelOf } from "./states.js";
import { DagData, MOST } from "./dag_data.js";
import { grid } from "./grid.js";
import { graph } from "./graph.js";
import { gantt } from "./gantt.js";
import { instancePanel, panelHint, runPanel, taskPanel } from "./panel.js";
import { accessDialog } from "./access_dialogs.js";
import { backfillDialog, triggerDialog } from "./runs_dialogs.js";
import { nextRun, pauseSwitch } from "./view_dags.js";
import { button, empty, head, link, loading, pager, to, trouble } from "./widgets.js";

const SIZES = [10, 25, 50, 100], SLACK = 10;
const TABS = [["grid", "Grid"], ["graph", "Graph"], ["gantt", "Gantt"]];

export class DagView {
  constructor(app, id) {
    Object.assign(this, { app, id, place: "dags", data: new DagData(app, id), runs: null, outside: null, total: undefined, first: 0, query: {}, tab: "grid",
      grid: {}, graph: {}, isSwitching: new Set() });
  }

  take({ segments, query }) {
    const isMoved = query.from !== this.query.from || query.runs !== this.query.runs;
    Object.assign(this, { tab: segments[2] || "grid", query });
    if (isMoved && this.runs) this.app.poller.forget("runs");
  }

  title() {
    return this.id;
  }

  // ---- What is read ----

  get size() {
    return SIZES.includes(Number(this.query.runs)) ? Number(this.query.runs) : 25;
  }

  /** The number of the first run that is shown, if older ones are looked at; undefined at the newest. */
  get from() {
    return /^\d+$/.test(this.query.from || "") ? Number(this.query.from) : undefined;
  }

  /** The number of the first task that the grid shows: a hundred at a time. */
  get firstTask() {
    const at = /^\d+$/.test(this.query.tasks || "") ? Number(this.query.tasks) : 0;
    return at % MOST === 0 && this.data.tasks && at < this.data.tasks.length ? at : 0;
  }

  sources() {
    const { query } = this, { permits } = this.app, found = this.data.sources();
    if (!permits.readsRuns(this.id)) return found;
    found.push(this.runsSource(), ...this.outsideSource());
    const shown = [...(this.runs || [])].reverse(), run = this.run();
    if (run && this.tab !== "grid") return [...found, ...this.data.instanceSources(run), ...this.data.poolSources(this.chosenRow())];
    // (of the run that is chosen all tasks are read, since those upstream say why one waits)
    const also = run && query.task ? this.data.instanceSources(run) : [], its = new Set(also.map((it) => it.key));
    const others = (run && !shown.includes(run) ? [run, ...shown] : shown).flatMap((it) => this.data.instanceSources(it, this.firstTask));
    return [...found, ...this.data.poolSources(this.chosenRow()), ...also, ...others.filter((it) => !its.has(it.key))];
  }

  /** A chosen run stays chosen when newer ones have taken its place. */
  outsideSource() {
    const { run } = this.query;
    if (!run || !this.runs || this.runs.some((it) => it.dag_run_id === run)) return [];
    const target = v1("dags", this.id, "dagRuns", run);
    return [{ key: "chosen", target, every: 3, apply: (json) => (this.outside = json) && undefined, refused: () => (this.outside = null) }];
  }

  runsSource() {
    const { size, from, total } = this;
    const offset = from ?? (total === undefined ? 0 : Math.max(0, total - size));
    const limit = from === undefined && total !== undefined ? Math.min(MOST, size + SLACK) : size;
    const target = `${v1("dags", this.id, "dagRuns")}?limit=${limit}&offset=${offset}`;
    const apply = (json) => {
      this.total = json.total_entries;
      const rows = json.dag_runs.length, isShort = offset > 0 && rows < Math.min(size, this.total);
      if (from === undefined && (offset + rows < this.total || isShort)) return "again";
      this.runs = from === undefined ? json.dag_runs.slice(-size) : json.dag_runs;
      this.first = from ?? Math.max(0, this.total - this.runs.length);
      this.data.keepOnly(new Set([this.query.run, ...this.runs.map((it) => it.dag_run_id)]));
      return undefined;
    };
    return { key: "runs", target, every: 2, follows: true, apply };
  }

  // ---- What is chosen ----

  /** The run that is chosen; for the graph and the Gantt chart the newest if none is. */
  run() {
    const runs = this.runs || [];
    const { outside, query } = this;
    const chosen = [...runs, ...(outside ? [outside] : [])].find((it) => it.dag_run_id === query.run);
    return chosen || (this.tab === "grid" ? undefined : runs[runs.length - 1]);
  }

  chosenRow() {
    const run = this.run();
    return run && this.query.task ? this.data.instance(run.dag_run_id, this.query.task) : undefined;
  }

  choose(place) {
    this.app.choose({ run: place.run || undefined, task: place.task || undefined });
  }

  triggered(run) {
    this.app.choose({ from: undefined, run: run.dag_run_id, task: undefined });
    this.app.poller.forget("runs");
  }

  switched(dag) {
    this.data.dag = dag;
  }

  touched(runId) {
    this.data.touched(runId);
  }

  deleted() {
    this.app.poller.forget("runs");
    this.app.choose({ run: undefined, task: undefined });
  }

  // ---- What is shown ----

  render() {
    const { app, data } = this, why = app.poller.error("dag");
    if (why) return h("section", null, head(h("span", { class: "id" }, this.id)), trouble(why, app.me));
    return h("section", { class: "dag" }, this.head(), this.tabs(), data.dag ? this.body() : loading());
  }

  head() {
    const { app, data } = this, { dag } = data;
    return head(h("span", { class: "id" }, this.id), dag ? [
      app.permits.onDag(this.id, "can_edit") ? pauseSwitch(app, dag, this.isSwitching) : null,
      h("span", { class: "sub" },
        `${dag.is_paused ? "paused" : "active"} · ${schedule(dag.schedule_interval)} · at most ${count(dag.max_active_runs, "run")} at a time`),
      dag.schedule_interval === null ? null : h("span", { class: "sub" }, "Next: ", nextRun(dag)),
      app.permits.triggers(this.id) ? button("Trigger …", () => triggerDialog(app, this.id), { class: "first" }) : null,
      app.permits.triggers(this.id) && dag.schedule_interval !== null ? button("Backfill …", () => backfillDialog(app, this.id)) : null,
      app.permits.has("Roles", "can_edit") && app.permits.has("Roles", "can_read") ? button("Access …", () => accessDialog(app, this.id)) : null,
    ] : null);
  }

  tabs() {
    const { from: _from, ...query } = this.query;
    return h("nav", { class: "tabs", "aria-label": "Ways to look at this DAG" }, TABS.map(([name, words]) =>
      h("a", { key: name, href: to(["dags", this.id, ...(name === "grid" ? [] : [name])], name === "grid" ? this.query : query),
        "aria-current": this.tab === name ? "page" : null }, words)));
  }

  body() {
    const { app, data } = this, { permits } = app;
    const why = app.poller.error("tasks") || app.poller.error("runs");
    const lacks = !permits.has("Task Instances", "can_read") ? "Task Instances" : this.tab !== "graph" && !permits.readsRuns(this.id) ? "DAG Runs" : null;
    if (lacks) return trouble({ status: 403, detail: `missing permission ${lacks}.can_read` }, app.me);
    if (why) return trouble(why, app.me);
    if (!data.tasks || (permits.readsRuns(this.id) && !this.runs)) return loading();
    return h("div", { class: "split", key: "split" }, h("div", { class: "left" }, this.shown()),
      h("aside", { class: "right", "aria-label": "What is chosen" }, this.panel()));
  }

  shown() {
    const { data, query } = this, runs = this.runs || [];
    if (this.tab === "graph") return [graph({ choice: this.runChoice(), tasks: data.tasks,
      instanceOf: (task) => this.run() && data.instance(this.run().dag_run_id, task), chosen: query.task, choose: (task) => this.chooseTask(task),
      kept: this.graph, update: () => this.app.update() }), legend()];
    if (!runs.length) return empty("There is no run yet.");
    if (this.tab === "gantt") {
      const run = this.run(), rows = data.rows(run.dag_run_id);
      return [h("div", { class: "tools" }, this.runChoice()),
        rows ? gantt(run, rows, { chosen: query.task, choose: (task) => this.chooseTask(task) }) : loading(), legend()];
    }
    const rowOf = (run, task) => data.instance(run.dag_run_id, task.task_id);
    const chosen = { run: query.run, task: query.task };
    const tasks = data.tasks.slice(this.firstTask, this.firstTask + MOST);
    return [this.tools(), grid({ runs, tasks, rowOf, chosen, choose: (place) => this.choose(place), update: () => this.app.update() }, this.grid), legend()];
  }

  chooseTask(task) {
    const run = this.run();
    this.app.choose({ task, run: run && run.dag_run_id });
  }

  /** Which runs the grid shows. */
  tools() {
    const { size, first, total } = this, last = first + (this.runs || []).length;
    const at = (from) => to(["dags", this.id], { ...this.query, from, run: undefined, task: undefined });
    const newer = first + size >= total - size ? undefined : first + size;
    return h("div", { class: "tools" },
      h("nav", { class: "pager", "aria-label": "Runs" },
        first > 0 ? h("a", { href: at(Math.max(0, first - size)), rel: "prev" }, "Older") : h("span", { class: "faint" }, "Older"),
        h("span", null, total ? `runs ${(first + 1).toLocaleString("en")}–${last.toLocaleString("en")} of ${total.toLocaleString("en")}` : "no run"),
        last < total ? h("a", { href: at(newer), rel: "next" }, "Newer") : h("span", { class: "faint" }, "Newer"),
        this.from !== undefined ? h("a", { href: at(undefined) }, "Newest") : null),
      h("label", null, "Show ", h("select",
        { value: String(size), onchange: (event) => this.app.choose({ runs: event.target.value === "25" ? undefined : event.target.value, from: undefined }) },
        SIZES.map((it) => h("option", { value: String(it) }, it))), " runs"),
      pager(this.firstTask, MOST, this.data.tasks.length, (at) => to(["dags", this.id], { ...this.query, tasks: at || undefined }),
        ["Tasks before", "Tasks after"]));
  }

  /** Which run the graph and the Gantt chart show. */
  runChoice() {
    const runs = [...(this.runs || [])].reverse(), run = this.run();
    if (!run) return null;
    const isNewest = !this.query.run;
    return [h("label", null, "Run ", h("select", { value: isNewest ? "" : run.dag_run_id, onchange: (event) => this.app.choose({ run: event.target.value }) },
      h("option", { value: "" }, `the newest: ${runs[0].dag_run_id} · ${labelOf(runs[0].state)}`),
      runs.map((it) => h("option", { key: it.dag_run_id, value: it.dag_run_id }, `${it.dag_run_id} · ${labelOf(it.state)} · ${stamp(it.logical_date)}`)))),
    link(["dags", this.id, "runs", run.dag_run_id], "Open the run")];
  }

  panel() {
    const { app, data, query } = this, run = this.run();
    const linkTo = (task) => to(["dags", this.id, ...(this.tab === "grid" ? [] : [this.tab])], { ...query, task });
    const task = (data.tasks || []).find((it) => it.task_id === query.task), row = this.chosenRow();
    if (row && run) return instancePanel(app, row, data.known(run, linkTo));
    if (task) return taskPanel(data.tasks, task, linkTo);
    if (run) return runPanel(app, run, data.rows(run.dag_run_id));
    return panelHint();
  }
}
