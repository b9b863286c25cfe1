// Why a task instance is in its state, from what the API shows: the tasks upstream of it, its rule, its pool, its run and its DAG.

import { h } from "./dom.js";
import { count, listed } from "./format.js";
import { hasEnded, labelOf } from "./states.js";
import { to } from "./widgets.js";

const RULES = {
  all_success: "all tasks upstream have succeeded",
  all_failed: "all tasks upstream have failed",
  all_done: "all tasks upstream have finished",
  one_success: "one task upstream has succeeded",
  one_failed: "one task upstream has failed",
  one_done: "one task upstream has succeeded or failed",
  none_failed: "all tasks upstream have finished and none has failed",
  none_failed_min_one_success: "all tasks upstream have finished, none has failed, and one has succeeded",
  none_skipped: "all tasks upstream have finished and none was skipped",
  all_skipped: "all tasks upstream were skipped",
  always: "at once",
};

export const ruleWords = (rule) => RULES[rule] || rule;

/** The tasks directly upstream of one. */
export const upstreamOf = (tasks, id) => tasks.filter((it) => it.downstream_task_ids.includes(id)).map((it) => it.task_id);

function upstreamWords(ids, stateOf, isWanted) {
  const found = ids.filter((it) => isWanted(stateOf(it)));
  return found.length ? listed(found.slice(0, 8).map((it) => `${it} (${labelOf(stateOf(it))})`)) + (found.length > 8
    ? ` and ${found.length - 8} more` : "") : "";
}

function poolWords(row, pool) {
  const needs = `It needs ${count(row.pool_slots, "slot")} of the pool ${row.pool}`;
  if (!pool) return [`${needs}. You may not read pools, so this page cannot tell how many are open.`];
  const state = `, of whose ${count(pool.slots, "slot")} ${pool.open_slots} ${pool.open_slots === 1 ? "is" : "are"} open (${pool.running_slots} running, ${pool.queued_slots} queued).`;
  return [needs + state, " ", h("a", { href: to(["pools"]) }, "Pools")];
}

/** Sentences on an instance. `known`: the DAG, its tasks, the run, the states of its instances, the pool if it may be read. */
export function reasons(row, known) {
  const { dag, tasks, run, stateOf, pool } = known, task = tasks.find((it) => it.task_id === row.task_id), found = [];
  const above = upstreamOf(tasks, row.task_id), rule = task ? task.trigger_rule : "all_success";
  const isWaiting = !hasEnded(row.state) && row.state !== "running";
  if (isWaiting && dag && dag.is_paused && row.state !== "queued") found.push(["The DAG is paused: none of its tasks is queued until it is resumed."]);
  if (isWaiting && run && run.state === "queued") found.push([`The run itself is queued. The DAG lets ${count(dag ? dag.max_active_runs : 0, "run")} be running at a time.`]);
  if (row.state === null && run && run.state === "running") {
    const open = upstreamWords(above, stateOf, (it) => !hasEnded(it));
    found.push([open ? `It waits for ${open}.` : "It becomes scheduled at the next tick of the scheduler."]);
  }
  if (row.state === null && above.length) found.push([`Its rule is ${rule}: it may run when ${ruleWords(rule)}.`]);
  if (row.state === "scheduled") found.push(poolWords(row, pool));
  if (row.state === "scheduled" && task) found.push([`Its weight is ${task.priority_weight}: of those that wait, greater weights are queued first.`]);
  if (row.state === "queued") found.push([`It holds ${count(row.pool_slots, "slot")} of the pool ${row.pool} and waits for the executor.`]);
  if (row.state === "up_for_retry") found.push([`Try ${row.try_number} failed. It is tried again after the delay that the configuration sets; the API does not show it.`]);
  if (row.state === "failed") found.push([`It failed at try ${row.try_number}${task ? (task.retries ? `, with ${count(task.retries, "retry", "retries")} allowed` : ", and is not tried again (no retries)") : ""}. There are no task logs here.`]);
  if (row.state === "upstream_failed") found.push([`It never ran, since its rule is ${rule}: it may run when ${ruleWords(rule)}. ${sentence("Failed upstream", upstreamWords(above, stateOf, (it) => it === "failed" || it === "upstream_failed"))}`]);
  if (row.state === "skipped") found.push([row.start_date
    ? "Its last try ended as skipped, or its run was marked failed." : `It never ran. Its rule is ${rule}: it may run when ${ruleWords(rule)}. ${sentence("Upstream", upstreamWords(above, stateOf, () => true))}`]);
  return found;
}

const sentence = (head, words) => (words ? `${head}: ${words}.` : "");
