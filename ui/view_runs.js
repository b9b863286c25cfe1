// The runs of all DAGs, the newest first, with a filter in the page.

import { h } from "./dom.js";
import { v1 } from "./api.js";
import { count, lasting, took } from "./format.js";
import { RUN_STATES, badge, labelOf } from "./states.js";
import { Pages } from "./lists.js";
import { button, dagLink, empty, head, loading, moment, runLink, table, trouble } from "./widgets.js";

const SHOWN = 100, STEP = 10, ENOUGH = 20;

export class RunsView {
  constructor(app) {
    Object.assign(this, { app, place: "runs", list: new Pages("runs", v1("dags", "~", "dagRuns"), (json) => json.dag_runs), query: {}, shown: SHOWN });
  }

  take({ query }) {
    const { state, find } = this.query;
    this.query = query;
    if (state !== query.state || find !== query.find) Object.assign(this.list, { depth: 1 });
    this.shown = SHOWN;
  }

  title() {
    return "Runs";
  }

  get isFiltered() {
    return Boolean(this.query.state || this.query.find);
  }

  found() {
    const { state, find } = this.query, rows = this.list.newestFirst();
    return rows.filter((it) => (!state || it.state === state) && (!find || it.dag_id.includes(find) || it.dag_run_id.includes(find)));
  }

  sources() {
    // a filter looks further back by itself, but not without end
    if (this.isFiltered && !this.list.isReading && this.list.hasOlder && this.list.depth < STEP && this.found().length < ENOUGH) this.list.depth += 1;
    return this.list.sources();
  }

  older() {
    this.list.depth += this.isFiltered ? STEP : 1;
    this.shown += this.isFiltered ? 0 : SHOWN;
    this.app.poller.open();
    this.app.update();
  }

  render() {
    const { app, list, query } = this, why = app.poller.error(`runs-${list.head}`);
    if (why) return h("section", null, head("Runs"), trouble(why, app.me));
    const found = this.found();
    const filters = h("form", { class: "filters", role: "search", onsubmit: (event) => event.preventDefault() },
      h("input", { type: "search", "aria-label": "Find runs by DAG or run id", placeholder: "Find by DAG or run id", value: query.find || "", maxlength: 250,
        oninput: (event) => app.choose({ find: event.target.value }) }),
      h("select", { "aria-label": "Runs in which state", value: query.state || "", onchange: (event) => app.choose({ state: event.target.value }) },
        h("option", { value: "" }, "all states"), RUN_STATES.map((it) => h("option", { key: it, value: it }, labelOf(it)))));
    return h("section", null, head("Runs", h("span", { class: "count" }, list.total === undefined ? "" : list.total.toLocaleString("en")), filters),
      list.total === undefined ? loading() : found.length ? this.table(found.slice(0, this.shown)) : empty(list.isReading ? "Looking …" : !this.isFiltered
        ? "There is no run yet." : list.hasOlder ? "No such run among those that were looked at." : "There is no such run."),
      list.total === undefined ? null : this.more(found));
  }

  table(rows) {
    const columns = [["State", ""], ["DAG", "row"], ["Run", ""], ["Type", ""], ["Logical date", ""], ["Started", ""], ["Ended", ""], ["Took", "number"]];
    return table("Runs", columns, rows.map((it) => ({ key: `${it.dag_id} ${it.dag_run_id}`, cells: [
      badge(it.state), dagLink(it.dag_id), runLink(it), it.run_type, moment(it.logical_date), moment(it.start_date), moment(it.end_date), lasting(took(it)) || h("span", { class: "faint" }, "–")] })));
  }

  more(found) {
    const { list } = this, rest = found.length - this.shown;
    return h("p", { class: "more" },
      h("span", { role: "status" },
        `${this.isFiltered ? `${count(found.length, "match", "matches")} in ` : ""}the newest ${count(list.looked, "run")} of ${list.total.toLocaleString("en")}${list.isReading ? ", reading …" : ""}. `),
      rest > 0 ? button(`Show ${Math.min(rest, SHOWN)} more`, () => {
        this.shown += SHOWN;
        this.app.update();
      }) : list.hasOlder && !list.isReading ? button(this.isFiltered ? "Look further back" : "Older runs", () => this.older()) : null);
  }
}
