// The event log, the newest entry first, with filters in the page: the API has none.

import { h } from "./dom.js";
import { v1 } from "./api.js";
import { count } from "./format.js";
import { Pages } from "./lists.js";
import { button, dagLink, empty, head, loading, moment, runLink, table, trouble } from "./widgets.js";

const SHOWN = 100, STEP = 10, ENOUGH = 20;

/** What each event is, and to which kind it belongs. */
const EVENTS = {
  patch_dag: ["paused or resumed a DAG", "dags"],
  trigger_dag_run: ["triggered a run", "runs"], patch_dag_run: ["marked a run", "runs"], delete_dag_run: ["deleted a run", "runs"],
  clear_dag_run: ["cleared a run", "runs"], clear_task_instances: ["cleared task instances", "runs"], backfill: ["backfilled a DAG", "runs"],
  post_pool: ["added a pool", "pools"], patch_pool: ["changed the slots of a pool", "pools"], delete_pool: ["deleted a pool", "pools"],
  post_variable: ["added a variable", "variables"], patch_variable: ["changed a variable", "variables"], delete_variable: ["deleted a variable", "variables"],
  tick: ["scheduler's tick", "machine"], claim: ["executor began a try", "machine"], report: ["executor reported a try", "machine"],
};
const KINDS = [["people", "by people"], ["dags", "on DAGs"], ["runs", "on runs"], ["pools", "on pools"], ["variables", "on variables"],
  ["machine", "by scheduler and executor"], ["all", "all"]];

const kindOf = (event) => (Object.hasOwn(EVENTS, event) ? EVENTS[event][1] : "people");

export class EventsView {
  constructor(app) {
    Object.assign(this, { app, place: "events", query: {}, shown: SHOWN });
    this.anew();
  }

  /** Which entries there are to see depends on the policy: a page of another version is none of this list. */
  anew() {
    this.list = new Pages("entries", v1("eventLogs"), (json) => json.event_logs, { isFixed: true });
    this.policy = this.app.seenPolicy;
  }

  take({ query }) {
    const isSame = ["kind", "find"].every((it) => this.query[it] === query[it]);
    this.query = query;
    if (!isSame) Object.assign(this.list, { depth: 1 });
    this.shown = SHOWN;
  }

  title() {
    return "Event log";
  }

  get kind() {
    return KINDS.some((it) => it[0] === this.query.kind) ? this.query.kind : "people";
  }

  get isFiltered() {
    return this.kind !== "all" || Boolean(this.query.find);
  }

  matches(it) {
    const { kind } = this, find = (this.query.find || "").trim().toLowerCase();
    if (kind !== "all" && (kind === "people" ? kindOf(it.event) === "machine" : kindOf(it.event) !== kind)) return false;
    const version = /^version[: ](\d+)$/.exec(find);
    if (version) return it.policy_version === Number(version[1]);
    return !find || [it.owner, it.event, it.dag_id, it.run_id, it.task_id].some((text) => text && text.toLowerCase().includes(find));
  }

  found() {
    return this.list.newestFirst().filter((it) => this.matches(it));
  }

  sources() {
    if (this.policy !== this.app.seenPolicy) this.anew();
    if (this.isFiltered && !this.list.isReading && this.list.hasOlder && this.list.depth < STEP && this.found().length < ENOUGH) this.list.depth += 1;
    return this.list.sources();
  }

  render() {
    const { app, list, query } = this, why = app.poller.error(`entries-${list.head}`);
    if (why) return h("section", null, head("Event log"), trouble(why, app.me));
    const found = this.found();
    const filters = h("form", { class: "filters", role: "search", onsubmit: (event) => event.preventDefault() },
      h("input", { type: "search", "aria-label": "Find in owner, event, DAG, run, or version N", placeholder: "owner, event, DAG, run, version 3",
        value: query.find || "", maxlength: 250, oninput: (event) => app.choose({ find: event.target.value }) }),
      h("select", { "aria-label": "Which entries", value: this.kind,
        onchange: (event) => app.choose({ kind: event.target.value === "people" ? undefined : event.target.value }) },
        KINDS.map(([name, words]) => h("option", { key: name, value: name }, words))));
    return h("section", null, head("Event log", h("span", { class: "count" }, list.total === undefined ? "" : list.total.toLocaleString("en")), filters),
      h("p", { class: "hint" },
        "Each change of DAGs, runs, pools and variables, by whom, and under which policy version. Changes of roles and users have versions, not entries: ",
        h("a", { href: "#/access" }, "Access"), ".",
        ["pools", "variables"].includes(this.kind) ? ` The API does not say which of the ${this.kind} an entry changed.` : ""),
      list.total === undefined ? loading() : found.length ? this.table(found.slice(0, this.shown)) : empty(this.nothing()),
      list.total === undefined ? null : this.more(found));
  }

  nothing() {
    if (this.list.isReading) return "Looking …";
    if (!this.list.total) return "There is no entry yet.";
    const where = this.list.hasOlder ? "among those that were looked at" : "in the whole log";
    return this.kind === "people" && !this.query.find ? `No change by a person ${where}. “all” shows those of the scheduler and the executor too.` : `No such entry ${where}.`;
  }

  table(rows) {
    const columns = [["No.", "number"], ["When", ""], ["Owner", "row"], ["Event", ""], ["DAG", ""], ["Run", ""], ["Task", ""], ["Policy", "number"]];
    return table("Entries of the event log", columns, rows.map((it) => ({ key: it.event_log_id, cells: [
      it.event_log_id, moment(it.when), h("span", { class: "id" }, it.owner), [h("code", null, it.event), " ",
        h("span", { class: "sub" }, Object.hasOwn(EVENTS, it.event) ? EVENTS[it.event][0] : "")],
      it.dag_id === null ? "" : dagLink(it.dag_id), it.run_id === null ? "" : it.dag_id === null ? it.run_id : runLink({ dag_id: it.dag_id,
        dag_run_id: it.run_id }), it.task_id === null ? "" : h("span", { class: "id" }, it.task_id), it.policy_version] })));
  }

  more(found) {
    const { list } = this, rest = found.length - this.shown;
    const further = () => {
      list.depth += this.isFiltered ? STEP : 1;
      this.shown += this.isFiltered ? 0 : SHOWN;
      this.app.poller.open();
      this.app.update();
    };
    return h("p", { class: "more" },
      h("span", { role: "status" },
        `${this.isFiltered ? `${count(found.length, "match", "matches")} in ` : ""}the newest ${count(list.looked, "entry", "entries")} of ${list.total.toLocaleString("en")}${list.isReading ? ", reading …" : ""}. `),
      rest > 0 ? button(`Show ${Math.min(rest, SHOWN)} more`, () => {
        this.shown += SHOWN;
        this.app.update();
      }) : list.hasOlder && !list.isReading ? button(this.isFiltered ? "Look further back" : "Older entries", () => further()) : null);
  }
}

