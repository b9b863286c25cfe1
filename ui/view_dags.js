// The DAGs: how their last runs went, when the next one is due, and the switch that pauses.

import { h, memo } from "./dom.js";
import { canAsk, v1 } from "./api.js";
import { due, lasting, schedule } from "./format.js";
import { badge } from "./states.js";
import { bars } from "./bars.js";
import { Tail } from "./lists.js";
import { triggerDialog } from "./runs_dialogs.js";
import { button, dagLink, empty, head, loading, moment, pager, table, to, trouble } from "./widgets.js";

const SIZE = 25, MOST = 100, BARS = 14, LATE = 5000;

export class DagsView {
  constructor(app) {
    Object.assign(this, { app, place: "dags", pages: new Map(), total: undefined, tails: new Map(), latest: new Tail(v1("dags", "~", "dagRuns"), MOST),
      query: {}, isSwitching: new Set() });
  }

  take({ query }) {
    this.query = query;
  }

  title() {
    return "DAGs";
  }

  // ---- What is read ----

  get at() {
    return /^\d+$/.test(this.query.at || "") ? Number(this.query.at) : 0;
  }

  /** With a filter all DAGs are looked through, a hundred at a time; without one only a page is read. */
  get isFiltered() {
    return Boolean(this.query.find || this.query.show);
  }

  wanted() {
    if (!this.isFiltered) return [[this.at, SIZE]];
    const found = [[0, MOST]];
    for (let at = MOST; at < (this.total || 0); at += MOST) found.push([at, MOST]);
    return found;
  }

  matches(dag) {
    const { find, show } = this.query;
    return (!find || dag.dag_id.toLowerCase().includes(find.toLowerCase())) && (!show || (show === "paused") === dag.is_paused);
  }

  /** The rows that match, and how many rows there are to go through. */
  rows() {
    const all = this.wanted().flatMap(([at, size]) => this.pages.get(`${at}-${size}`) || []);
    if (!this.isFiltered) return { rows: all, total: this.total };
    const found = all.filter((it) => this.matches(it));
    return { rows: found.slice(this.at, this.at + SIZE), total: found.length };
  }

  sources() {
    const dags = this.wanted().map(([at, size]) => ({
      key: `dags-${at}-${size}`,
      target: `${v1("dags")}?limit=${size}&offset=${at}`,
      every: this.isFiltered ? 10 : 4,
      apply: (json) => {
        this.total = json.total_entries;
        this.pages.set(`${at}-${size}`, json.dags);
      },
    }));
    if (!this.app.permits.readsSomeRuns()) return dags;
    const latest = this.latest.source("latest", 2, () => this.spread());
    return [...dags, ...this.withRuns().map((it) => this.tail(it.dag_id).source(`runs-${it.dag_id}`, 12)), latest];
  }

  /** The DAGs of this page whose runs can be read. */
  withRuns() {
    return this.rows().rows.filter((it) => canAsk(it.dag_id) && this.app.permits.readsRuns(it.dag_id));
  }

  tail(id) {
    if (!this.tails.has(id)) this.tails.set(id, new Tail(v1("dags", id, "dagRuns"), BARS));
    return this.tails.get(id);
  }

  switched(dag) {
    for (const rows of this.pages.values()) for (const it of rows) if (it.dag_id === dag.dag_id) Object.assign(it, dag);
  }

  /** The latest runs of all DAGs are news for those on this page. */
  spread() {
    for (const { dag_id: id } of this.withRuns()) {
      const isWhole = this.tail(id).merge(this.latest.rows.filter((it) => it.dag_id === id));
      if (!isWhole) this.app.poller.forget(`runs-${id}`);
    }
  }

  // ---- What is shown ----

  render() {
    const { app } = this;
    const why = app.poller.error(`dags-${this.wanted()[0].join("-")}`);
    const { rows, total } = this.rows();
    return h("section", { class: "dags" },
      head("DAGs", h("span", { class: "count" }, this.total === undefined ? "" : this.isFiltered ? `${total} of ${this.total}` : this.total), this.filters()),
      why ? trouble(why, app.me) : this.total === undefined ? loading() : rows.length ? this.table(rows) : empty(this.isFiltered
        ? "No DAG matches." : "There is no DAG that you may read."),
      why ? null : pager(this.at, SIZE, total, (at) => to(["dags"], { ...this.query, at: at || undefined })));
  }

  filters() {
    const { query } = this;
    const find = (event) => this.app.choose({ find: event.target.value, at: undefined });
    const show = (event) => this.app.choose({ show: event.target.value, at: undefined });
    return h("form", { class: "filters", role: "search", onsubmit: (event) => event.preventDefault() },
      h("input", { type: "search", "aria-label": "Find DAGs by name", placeholder: "Find by name", value: query.find || "", oninput: find, maxlength: 250 }),
      h("select", { "aria-label": "Which DAGs", value: query.show || "", onchange: show },
        h("option", { value: "" }, "all"), h("option", { value: "active" }, "active"), h("option", { value: "paused" }, "paused")));
  }

  table(rows) {
    const mayRuns = this.app.permits.readsSomeRuns();
    const mayTrigger = rows.some((it) => this.app.permits.triggers(it.dag_id));
    const columns = [["", "tight"], ["DAG", "row"], ...(mayRuns ? [["Last runs, newest right", "runs"], ["Last run", ""]] : []), ["Next run", ""],
      ...(mayTrigger ? [["", "act"]] : [])];
    return table("DAGs", columns,
      rows.map((dag) => ({ key: dag.dag_id, cells: this.cells(dag, mayRuns, mayTrigger), class: dag.is_paused ? "is-paused" : null })), { class: "rows dags" });
  }

  cells(dag, mayRuns, mayTrigger) {
    const tail = canAsk(dag.dag_id) ? this.tail(dag.dag_id) : { rows: [], isRead: false }, last = tail.rows[tail.rows.length - 1];
    const runs = !mayRuns ? [] : !this.app.permits.readsRuns(dag.dag_id) ? [h("span", { class: "faint" }, "–"), ""] : [
      tail.isRead ? this.bars(tail) : h("span", { class: "faint" }, "…"),
      last ? h("span", { class: "last" }, badge(last.state),
        h("span", { class: "sub" }, moment(last.end_date || last.start_date || last.logical_date))) : tail.isRead ? h("span", { class: "faint" },
        "no run yet") : "",
    ];
    return [
      pauseSwitch(this.app, dag, this.isSwitching),
      [dagLink(dag.dag_id), h("span", { class: "sub" }, schedule(dag.schedule_interval))],
      ...runs,
      nextRun(dag),
      ...(mayTrigger ? [this.app.permits.triggers(dag.dag_id) && canAsk(dag.dag_id) ? button("Trigger", () => triggerDialog(this.app, dag.dag_id),
        { "aria-label": `Trigger ${dag.dag_id}` }) : ""] : []),
    ];
  }

  bars(tail) {
    const isMoving = tail.rows.some((it) => it.state === "running");
    return memo(`bars`, [tail.rows, ...tail.rows, isMoving ? Math.floor(Date.now() / 1000) : 0],
      () => bars(tail.rows, BARS, (run) => to(["dags", run.dag_id], { run: run.dag_run_id })));
  }
}

/** The switch that pauses and resumes a DAG, or the word for what it is if the user may not edit it. */
export function pauseSwitch(app, dag, isSwitching) {
  const words = dag.is_paused ? "paused" : "active";
  if (!app.permits.onDag(dag.dag_id, "can_edit") || !canAsk(dag.dag_id)) return h("span", { class: "still" }, words);
  const flip = async () => {
    if (isSwitching.has(dag.dag_id)) return;
    isSwitching.add(dag.dag_id);
    app.update();
    const came = await app.change("PATCH", v1("dags", dag.dag_id), { is_paused: !dag.is_paused },
      (it) => `${dag.dag_id} is ${it.json.is_paused ? "paused: no task of it is queued" : "active"}.`);
    isSwitching.delete(dag.dag_id);
    if (came && app.view.switched) app.view.switched(came.json);
    app.update();
  };
  return h("button", { type: "button", role: "switch", class: `switch${dag.is_paused ? "" : " is-on"}`, "aria-checked": String(!dag.is_paused),
    "aria-label": `${dag.dag_id} is active`,
    "aria-busy": String(isSwitching.has(dag.dag_id)), title: `${words}: click to ${dag.is_paused ? "resume" : "pause"}`, onclick: flip }, h("span", { class: "knob" }));
}

/** When the next scheduled run is due, and whether it is late. */
export function nextRun(dag, now = Date.now()) {
  const at = due(dag);
  if (at === null) return h("span", { class: "next faint" }, dag.schedule_interval === null ? "by trigger" : "none");
  const late = now - at;
  const words = dag.is_paused ? "paused" : late > LATE ? h("strong", { class: "late" },
    `late by ${lasting(Math.round(late / 1000) * 1000)}`) : late >= -1000 ? "due now" : `in ${lasting(-late)}`;
  const when = new Date(at).toISOString().replace(".000Z", "Z");
  return h("span", { class: "next", title: `Its interval begins at ${dag.next_dagrun}` }, moment(when), h("span", { class: "sub" }, words));
}
