// A DAG with its tasks, and the task instances of some of its runs, as they are read piece by piece.

import { canAsk, v1 } from "./api.js";
import { hasEnded } from "./states.js";

/** How many tasks a page of instances has. */
export const MOST = 100;
const ACTIVE = 2, ENDED = 120;

export class DagData {
  constructor(app, id) {
    Object.assign(this, { app, id, dag: null, tasks: null, instances: new Map(), pool: null });
  }

  sources() {
    const { permits } = this.app;
    const dag = { key: "dag", target: v1("dags", this.id), every: 6, apply: (json) => (this.dag = json) && undefined };
    const tasks = { key: "tasks", target: v1("dags", this.id, "tasks"), isFixed: true, apply: (json) => (this.tasks = json.tasks) && undefined };
    return permits.has("Task Instances", "can_read") ? [dag, tasks] : [dag];
  }

  /** What is known of the instances of a run. */
  of(runId) {
    if (!this.instances.has(runId)) this.instances.set(runId, { byTask: new Map(), pages: new Set(), seenAs: "", stamp: 0 });
    return this.instances.get(runId);
  }

  /** The pages of the instances of a run, which are read again soon if the run has not ended or was changed. `from`: only the page of this task. */
  instanceSources(run, from) {
    if (!this.app.permits.readsInstances(this.id) || !this.tasks || !canAsk(run.dag_run_id)) return [];
    const known = this.of(run.dag_run_id), found = [], asIs = `${run.state} ${run.start_date} ${run.end_date}`;
    const isOver = hasEnded(run.state);
    for (let at = from ?? 0; at < (from === undefined ? Math.max(1, this.tasks.length) : from + 1); at += MOST) {
      const key = `instances-${run.dag_run_id}-${at}`;
      const apply = (json) => {
        for (const it of json.task_instances) known.byTask.set(it.task_id, it);
        known.pages.add(at);
        known.stamp += 1;
        Object.assign(known, { seenAs: asIs });
      };
      if (known.pages.size && known.seenAs !== asIs) this.app.poller.forget(key);
      const target = `${v1("dags", this.id, "dagRuns", run.dag_run_id, "taskInstances")}?limit=${MOST}&offset=${at}`;
      found.push({ key, target, every: isOver ? ENDED : ACTIVE, isSettled: isOver, apply });
    }
    return found;
  }

  /** The instances of a run in the order of the tasks, or null if none was read. */
  rows(runId) {
    const known = this.instances.get(runId);
    if (!known || !known.pages.size || !this.tasks) return null;
    return this.tasks.map((it) => known.byTask.get(it.task_id)).filter(Boolean);
  }

  instance(runId, taskId) {
    const known = this.instances.get(runId);
    return known && known.byTask.get(taskId);
  }

  /** The pool for which a task instance waits, if the user may read pools. */
  poolSources(row) {
    if (!row || row.state !== "scheduled" || !this.app.permits.has("Pools", "can_read") || !canAsk(row.pool)) return [];
    return [{ key: `pool-${row.pool}`, target: v1("pools", row.pool), every: 4, apply: (json) => (this.pool = json) && undefined }];
  }

  /** What reasons() wants to know. */
  known(run, linkTo) {
    return { dag: this.dag, tasks: this.tasks || [], run, stateOf: (task) => (this.instance(run.dag_run_id, task) || {}).state, pool: this.pool, linkTo };
  }

  /** The user has changed a run here: its instances are read again. */
  touched(runId) {
    for (let at = 0; at < Math.max(1, (this.tasks || []).length); at += MOST) this.app.poller.forget(`instances-${runId}-${at}`);
  }

  keepOnly(runIds) {
    for (const it of this.instances.keys()) if (!runIds.has(it)) this.instances.delete(it);
  }
}
