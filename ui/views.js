// Which view an address names.

import { h } from "./dom.js";
import { head, link } from "./widgets.js";
import { DagsView } from "./view_dags.js";
import { DagView } from "./view_dag.js";
import { RunView } from "./view_run.js";
import { RunsView } from "./view_runs.js";
import { PoolsView } from "./view_pools.js";
import { VariablesView } from "./view_variables.js";
import { EventsView } from "./view_events.js";
import { AccessView } from "./view_access.js";
import { MeView } from "./view_me.js";

const SIMPLE = { dags: DagsView, runs: RunsView, pools: PoolsView, variables: VariablesView, events: EventsView, access: AccessView, me: MeView };
const TABS = ["grid", "graph", "gantt"];

class NoView {
  constructor() {
    this.place = "";
  }

  take() {}

  title() {
    return "No such page";
  }

  sources() {
    return [];
  }

  render() {
    return h("section", null, head("No such page"), h("p", null, "This address leads to no view. ", link(["dags"], "To the DAGs")));
  }
}

export function viewFor({ segments }) {
  const [place, id, tab, run] = segments;
  if (place === "dags" && segments.length === 4 && tab === "runs") return { key: JSON.stringify(["run", id, run]), make: (app) => new RunView(app, id, run) };
  if (place === "dags" && (segments.length === 2 || (segments.length === 3 && TABS.includes(tab)))) return { key: JSON.stringify(["dag", id]),
    make: (app) => new DagView(app, id) };
  if (segments.length === 1 && Object.hasOwn(SIMPLE, place)) return { key: place, make: (app) => new SIMPLE[place](app) };
  return { key: "none", make: () => new NoView() };
}
