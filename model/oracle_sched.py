"""Ticks, claims and reports, put plainly: part of oracle.py. The program has no call for them yet; oracle_test.py has."""
from dataclasses import replace

from oracle_names import LAST, MICROS, isoformat, point_after
from oracle_policy import Fault
from oracle_rows import slots_in
from oracle_state import FINISHED, MOST_RUNS, new_run, runs_of, with_dag, with_run

MOST_AT_ONCE, MOST_TRIES = 16, 2**32 - 1


def verdict(rule, upstream):
    """What a trigger rule makes of the states of the upstream tasks: scheduled, upstream_failed, skipped, or none to wait."""
    n = len(upstream)
    s, f, u, k = (upstream.count(it) for it in FINISHED_AS_COUNTED)
    done = s + f + u + k == n
    if n == 0:
        return "scheduled"
    lines = {
        "all_success": [(f + u > 0, "upstream_failed"), (k > 0, "skipped"), (s == n, "scheduled")],
        "all_failed": [(s + k > 0, "skipped"), (f + u == n, "scheduled")],
        "all_done": [(done, "scheduled")],
        "one_success": [(s > 0, "scheduled"), (k == n, "skipped"), (done, "upstream_failed")],
        "one_failed": [(f + u > 0, "scheduled"), (done, "skipped")],
        "one_done": [(s + f > 0, "scheduled"), (done, "skipped")],
        "none_failed": [(f + u > 0, "upstream_failed"), (done, "scheduled")],
        "none_failed_min_one_success": [(f + u > 0, "upstream_failed"), (k == n, "skipped"), (done, "scheduled")],
        "none_skipped": [(k > 0, "skipped"), (done, "scheduled")],
        "all_skipped": [(s + f + u > 0, "skipped"), (k == n, "scheduled")],
        "always": [(True, "scheduled")],
    }
    return next((told for holds, told in lines[rule] if holds), None)


FINISHED_AS_COUNTED = ("success", "failed", "upstream_failed", "skipped")


def due_points(dag, now):
    """The points that get a run, and the cursor after them."""
    points, cursor = [], dag.cursor
    while cursor is not None and (not dag.catchup or len(points) < MOST_AT_ONCE):
        after = point_after(dag.schedule, dag.start, cursor)
        if after is None or after > now:
            break
        points, cursor = [*points, (cursor, after)] if dag.catchup else [(cursor, after)], after
    return points, cursor


def create(state, now):
    for name in sorted(state.dags):
        dag = state.dags[name]
        if dag.is_paused or dag.schedule is None:
            continue
        points, cursor = due_points(dag, now)
        for date, end in points:
            runs, run_id = runs_of(state, name), f"scheduled__{isoformat(date)}"
            if len(runs) < MOST_RUNS and not any(it.run_id == run_id or it.date == date for it in runs):
                state, _ = new_run(state, dag, run_id, "scheduled", date, end)
        state = with_dag(state, replace(dag, cursor=cursor))
    return state


def start(state, now):
    for name in sorted(state.dags):
        dag = state.dags[name]
        for run in [] if dag.is_paused else runs_of(state, name):
            running = sum(it.state == "running" for it in runs_of(state, name))
            if run.state == "queued" and running < dag.max_active_runs:
                state = with_run(state, replace(run, state="running", start=now))
    return state


def is_served(state, run):
    return run.state == "running" and not state.dags[run.dag_id].is_paused


def settle_run(tasks, instances, now):
    """The instances in topological order, each by the new states of those before it."""
    new = {}
    while len(new) < len(tasks):
        place, task = next((i, it) for i, it in enumerate(tasks) if it.task_id not in new and it.upstream <= new.keys())
        instance = instances[place]
        if instance.state == "up_for_retry" and instance.retry_at <= now:
            instance = replace(instance, state="scheduled", retry_at=None)
        elif instance.state is None:
            to = verdict(task.trigger_rule, [new[it].state for it in task.upstream])
            instance = replace(instance, state=to, end=now if to in FINISHED else instance.end)
        new[task.task_id] = instance
    return tuple(new[it.task_id] for it in tasks)


def settle(state, now):
    for run in state.runs:
        if is_served(state, run):
            state = with_run(state, replace(run, instances=settle_run(state.dags[run.dag_id].tasks, run.instances, now)))
    return state


def in_turn(state, runs, wanted):
    """Run number and place of the instances in a state, by falling weight, then run number, then place."""
    found = [
        (-task.priority_weight, run.number, place)
        for run in runs
        for place, task in enumerate(state.dags[run.dag_id].tasks)
        if run.instances[place].state == wanted
    ]
    return [(number, place) for _, number, place in sorted(found)]


def with_instance(before, number, place, **changes):
    run = next(it for it in before.runs if it.number == number)
    new = replace(run.instances[place], **changes)
    return with_run(before, replace(run, instances=(*run.instances[:place], new, *run.instances[place + 1 :])))


def queue(state):
    for number, place in in_turn(state, [it for it in state.runs if is_served(state, it)], "scheduled"):
        run = next(it for it in state.runs if it.number == number)
        task = state.dags[run.dag_id].tasks[place]
        if task.pool_slots <= state.pools[task.pool] - slots_in(state, task.pool, "queued", "running"):
            state = with_instance(state, number, place, state="queued")
    return state


def finish(state, now):
    for run in state.runs:
        if run.state == "running" and all(it.state in FINISHED for it in run.instances):
            tasks = state.dags[run.dag_id].tasks
            ends = [it.state for task, it in zip(tasks, run.instances) if not any(task.task_id in other.upstream for other in tasks)]
            to = "failed" if "failed" in ends or "upstream_failed" in ends else "success"
            state = with_run(state, replace(run, state=to, end=now))
    return state


def tick(state, now):
    return finish(queue(settle(start(create(state, now), now), now)), now)


def claim(state, now):
    """The state, and run number, task and try of the claim, or none."""
    for number, place in in_turn(state, state.runs, "queued"):
        run = next(it for it in state.runs if it.number == number)
        tries = run.instances[place].tries
        if tries < MOST_TRIES:
            task = state.dags[run.dag_id].tasks[place].task_id
            return with_instance(state, number, place, state="running", tries=tries + 1, start=now, end=None), (number, task, tries + 1)
    return state, None


def report(state, claimed, outcome, now):
    number, task_id, tries = claimed
    for run in state.runs:
        for place, task in enumerate(state.dags[run.dag_id].tasks):
            if run.number == number and task.task_id == task_id:
                it = run.instances[place]
                if it.state != "running":
                    raise Fault("NotRunning", None)
                if it.tries != tries:
                    raise Fault("WrongTry", None)
                again = now + task.retry_delay * MICROS
                if outcome == "failed" and tries <= it.max_tries and again <= LAST:
                    return with_instance(state, number, place, state="up_for_retry", end=now, retry_at=again)
                return with_instance(state, number, place, state=outcome, end=now)
    raise Fault("NoSuchInstance", None)
