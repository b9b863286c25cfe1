// What the owner of the token may do, and how a denial reads.

import { listed } from "./format.js";

export const RESOURCES = ["DAGs", "DAG Runs", "Task Instances", "Pools", "Variables", "Audit Logs", "Roles", "Users"];
export const ACTIONS = ["can_create", "can_read", "can_edit", "can_delete"];
export const VERBS = { can_create: "create", can_read: "read", can_edit: "edit", can_delete: "delete" };

const THINGS = {
  DAGs: "DAGs",
  "DAG Runs": "DAG runs",
  "Task Instances": "task instances",
  Pools: "pools",
  Variables: "variables",
  "Audit Logs": "the event log",
  Roles: "roles",
  Users: "users",
};

/** Resource and action of a permission that is written RESOURCE.ACTION. A resource may have dots itself. */
export function split(permission) {
  const dot = permission.lastIndexOf(".");
  return [permission.slice(0, dot), permission.slice(dot + 1)];
}

/** How the resource begins that is one DAG, and the one that is its runs: the id follows. */
export const ONE_DAG = "DAG:", ITS_RUNS = "DAG Run:";

/** The DAG whose runs a resource is, or none. */
const runsOf = (resource) => (resource.startsWith(ITS_RUNS) ? resource.slice(ITS_RUNS.length) : null);

export const thing = (resource) => (resource.startsWith(ONE_DAG) ? `the DAG ${resource.slice(ONE_DAG.length)}`
  : runsOf(resource) !== null ? `the runs of the DAG ${runsOf(resource)}` : THINGS[resource] || resource);

/** The permissions of a user, as `GET /own/me` lists them. */
export class Permits {
  constructor(permissions) {
    this.all = new Set(permissions);
  }

  has(resource, action) {
    return this.all.has(`${resource}.${action}`);
  }

  /** On one DAG: by a permission on all of them, or on this one. */
  onDag(id, action) {
    return this.has("DAGs", action) || this.has(`DAG:${id}`, action);
  }

  /** On some DAG: which may not exist. */
  onSomeDag(action) {
    return this.has("DAGs", action) || [...this.all].some((it) => it.startsWith(ONE_DAG) && it.endsWith(`.${action}`));
  }

  /** On the runs of one DAG: by a permission on the runs of all of them, or of this one. */
  onRuns(id, action) {
    return this.has("DAG Runs", action) || this.has(`${ITS_RUNS}${id}`, action);
  }

  /** One action on some DAG, which may not exist, and another on its runs. */
  onSomeRuns(onDag, action) {
    if (this.has("DAG Runs", action)) return this.onSomeDag(onDag);
    return [...this.all].map(split).some(([resource, its]) => its === action && runsOf(resource) !== null && this.onDag(runsOf(resource), onDag));
  }

  readsRuns(id) {
    return this.onRuns(id, "can_read");
  }

  /** The runs of some DAG that may be read too, so that the list of all runs may be. */
  readsSomeRuns() {
    return this.onSomeRuns("can_read", "can_read");
  }

  readsInstances(id) {
    return this.readsRuns(id) && this.has("Task Instances", "can_read");
  }

  triggers(id) {
    return this.onDag(id, "can_edit") && this.onRuns(id, "can_create");
  }

  marks(id) {
    return this.onDag(id, "can_edit") && this.onRuns(id, "can_edit");
  }

  deletes(id) {
    return this.onDag(id, "can_edit") && this.onRuns(id, "can_delete");
  }

  clearsTasks(id) {
    return this.onDag(id, "can_edit") && this.readsRuns(id) && this.has("Task Instances", "can_edit");
  }

  /** The ids of the single DAGs that permissions name, or whose runs they name. */
  singles(begin) {
    return [...new Set([...this.all].map((it) => split(it)[0]).filter((it) => it.startsWith(begin)).map((it) => it.slice(begin.length)))];
  }
}

/** A denial in words: what may not be done, by whom, and which permission is missing. Null if the text is no denial. */
export function denial(detail, me) {
  const found = /^missing permission (.+)\.(can_\w+)$/.exec(detail || "");
  if (!found || !(found[2] in VERBS)) return null;
  const roles = me ? (me.roles.length ? `None of your roles (${listed(me.roles)}) has` : "You have no role that has") : "You lack";
  return `You may not ${VERBS[found[2]]} ${thing(found[1])}. ${roles} the permission ${found[1]}.${found[2]}.`;
}
