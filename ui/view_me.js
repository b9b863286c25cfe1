// Who one is, and what one may do.

import { h } from "./dom.js";
import { ACTIONS, ITS_RUNS, ONE_DAG, RESOURCES, VERBS, thing } from "./permits.js";
import { dagLink, facts, head, table } from "./widgets.js";

/** What takes more than one permission. */
function abilities(permits) {
  const its = (action) => `also DAG Runs.${action}, or ${action} on the runs of these DAGs`;
  const rows = [
    ["see DAGs", permits.onSomeDag("can_read"), "DAGs.can_read, or can_read on single DAGs"],
    ["see their runs", permits.readsSomeRuns(), its("can_read")],
    ["see task instances: the grid, the Gantt chart", permits.readsSomeRuns() && permits.has("Task Instances", "can_read"), "also Task Instances.can_read"],
    ["pause and resume DAGs", permits.onSomeDag("can_edit"), "DAGs.can_edit, or can_edit on single DAGs"],
    ["trigger runs and backfill DAGs", permits.onSomeRuns("can_edit", "can_create"), its("can_create")],
    ["mark and clear runs", permits.onSomeRuns("can_edit", "can_edit"), its("can_edit")],
    ["clear single tasks", permits.onSomeRuns("can_edit", "can_read") && permits.has("Task Instances", "can_edit"),
      `${its("can_read")}; and Task Instances.can_edit`],
    ["delete runs", permits.onSomeRuns("can_edit", "can_delete"), its("can_delete")],
    ["see who changed what", permits.has("Audit Logs", "can_read"), "Audit Logs.can_read"],
  ];
  return rows.map(([words, may, needs]) => ({ key: words, cells: [words, may ? h("span", { class: "yes" }, "yes") : h("span", { class: "faint" }, "no"),
    needs] }));
}

export class MeView {
  constructor(app) {
    Object.assign(this, { app, place: "me" });
  }

  take() {}

  title() {
    return "What you may do";
  }

  /** What is shown here is always followed. */
  sources() {
    return [{ key: "me-shown", target: "/own/me", every: 2, apply: (json) => this.app.learn(json) }];
  }

  render() {
    const { me, permits } = this.app;
    const answer = (may) => (may ? h("span", { class: "yes" }, "yes") : h("span", { class: "faint" }, "no"));
    const columns = [["On", "row"], ...ACTIONS.map((it) => [VERBS[it], "number"])];
    const rows = RESOURCES.map((it) => ({ key: it, cells: [it === "DAGs" ? "all DAGs" : thing(it),
      ...ACTIONS.map((action) => answer(permits.has(it, action)))] }));
    const single = [...permits.singles(ONE_DAG).map((id) => ({ key: `${ONE_DAG}${id}`, cells: [["the DAG ", dagLink(id)], h("span", { class: "faint" }, "–"),
      ...ACTIONS.slice(1).map((action) => answer(permits.onDag(id, action)))] })),
    ...permits.singles(ITS_RUNS).map((id) => ({ key: `${ITS_RUNS}${id}`, cells: [["the runs of ", dagLink(id)],
      ...ACTIONS.map((action) => answer(permits.onRuns(id, action)))] }))];
    return h("section", { class: "me" }, head("What you may do"),
      facts([["User", h("span", { class: "id" }, me.username)],
        ["Roles", me.roles.length ? h("ul", { class: "chips" },
          me.roles.map((it) => h("li", { key: it, class: "id" }, it))) : "none: ask an administrator for one"],
        ["Policy version", me.policy_version]]),
      h("h2", null, "By resource"), table("Permissions by resource", columns, [...rows, ...single]),
      h("h2", null, "In practice"), table("What the permissions add up to", [["You may", "row"], ["", ""], ["It takes", ""]], abilities(permits)));
  }
}
