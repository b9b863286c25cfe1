"""The state, and what each operation makes of it, put plainly: part of oracle.py.

A state is replaced whole by each change, and never altered, so a change is a state that differs from the one before.
"""
from dataclasses import dataclass, replace

from oracle_names import isoformat, points_within
from oracle_policy import Fault

MOST_RUNS, MOST_POINTS, LAST_NUMBER = 65536, 100, 2**64 - 1
FINISHED = ("success", "failed", "skipped", "upstream_failed")


@dataclass(frozen=True)
class Task:
    task_id: str
    upstream: frozenset
    pool: str
    pool_slots: int
    priority_weight: int
    retries: int
    retry_delay: int
    trigger_rule: str


@dataclass(frozen=True)
class Dag:
    dag_id: str
    is_paused: bool
    max_active_runs: int
    schedule: object  # a preset, a number of seconds, or none
    start: object
    catchup: bool
    cursor: object
    tasks: tuple  # in the order of their definition


@dataclass(frozen=True)
class Instance:
    state: object
    start: object
    end: object
    tries: int
    max_tries: int
    retry_at: object


@dataclass(frozen=True)
class Run:
    number: int
    dag_id: str
    run_id: str
    run_type: str
    date: int
    interval_end: int
    state: str
    start: object
    end: object
    instances: tuple  # in the order of the tasks


@dataclass(frozen=True)
class State:
    dags: dict
    runs: tuple  # in order of number
    pools: dict
    variables: dict
    next_run: int


def none_or_date(moment):
    return None if moment is None else isoformat(moment)


# ---- Rows ----------------------------------------------------------------------------------------------------


def the_dag(state, dag_id):
    if dag_id not in state.dags:
        raise Fault("no such dag", dag_id)
    return state.dags[dag_id]


def runs_of(state, dag_id):
    return [it for it in state.runs if it.dag_id == dag_id]


def the_run(state, dag_id, run_id):
    the_dag(state, dag_id)
    for it in runs_of(state, dag_id):
        if it.run_id == run_id:
            return it
    raise Fault("no such run", run_id)


def show_dag(dag):
    return {
        "dag_id": dag.dag_id,
        "is_paused": dag.is_paused,
        "max_active_runs": dag.max_active_runs,
        "next_dagrun": none_or_date(dag.cursor),
        "schedule_interval": dag.schedule,
    }


def show_task(dag, task):
    return {
        "downstream_task_ids": [it.task_id for it in dag.tasks if task.task_id in it.upstream],
        "pool": task.pool,
        "pool_slots": task.pool_slots,
        "priority_weight": task.priority_weight,
        "retries": task.retries,
        "task_id": task.task_id,
        "trigger_rule": task.trigger_rule,
    }


def show_run(run):
    return {
        "dag_id": run.dag_id,
        "dag_run_id": run.run_id,
        "data_interval_end": isoformat(run.interval_end),
        "data_interval_start": isoformat(run.date),
        "end_date": none_or_date(run.end),
        "logical_date": isoformat(run.date),
        "run_type": run.run_type,
        "start_date": none_or_date(run.start),
        "state": run.state,
    }


def show_instance(run, task, instance):
    return {
        "dag_id": run.dag_id,
        "dag_run_id": run.run_id,
        "end_date": none_or_date(instance.end),
        "pool": task.pool,
        "pool_slots": task.pool_slots,
        "priority_weight": task.priority_weight,
        "start_date": none_or_date(instance.start),
        "state": instance.state,
        "task_id": task.task_id,
        "try_number": instance.tries,
    }


def instances_of(state, run):
    """Each task of the run's DAG with its instance."""
    return list(zip(state.dags[run.dag_id].tasks, run.instances))


def the_instance(state, dag_id, run_id, task_id):
    run = the_run(state, dag_id, run_id)
    for task, instance in instances_of(state, run):
        if task.task_id == task_id:
            return show_instance(run, task, instance)
    raise Fault("no such task", task_id)


def with_dag(state, dag):
    return replace(state, dags={**state.dags, dag.dag_id: dag})


def with_run(state, run):
    return replace(state, runs=tuple(run if it.number == run.number else it for it in state.runs))


# ---- Runs ----------------------------------------------------------------------------------------------------


def new_run(state, dag, run_id, run_type, date, interval_end):
    """The state with one run more, queued, each of its instances in no state."""
    instances = tuple(Instance(None, None, None, 0, it.retries, None) for it in dag.tasks)
    run = Run(state.next_run, dag.dag_id, run_id, run_type, date, interval_end, "queued", None, None, instances)
    return replace(state, runs=(*state.runs, run), next_run=state.next_run + 1), run


def trigger(state, dag_id, run_id, date):
    dag, runs = the_dag(state, dag_id), runs_of(state, dag_id)
    run_id = f"manual__{isoformat(date)}" if run_id is None else run_id
    if any(it.run_id == run_id for it in runs):
        raise Fault("run exists", run_id)
    if any(it.date == date for it in runs):
        raise Fault("date taken", isoformat(date))
    if len(runs) >= MOST_RUNS:
        raise Fault("too many", None)
    return new_run(state, dag, run_id, "manual", date, date)


def backfill(state, dag_id, start, end):
    """The state with a queued run for each point of a range whose id and logical date are free, and these runs, in order of date.

    Points that are taken count towards the most that one request may ask for. The cursor stays, and whether the DAG is paused does not matter.
    """
    dag, runs = the_dag(state, dag_id), runs_of(state, dag_id)
    if dag.schedule is None:
        raise Fault("no schedule", None)
    points = points_within(dag.schedule, dag.start, start, end, MOST_POINTS + 1)
    if len(points) > MOST_POINTS:
        raise Fault("too many", None)
    ids, dates = {it.run_id for it in runs}, {it.date for it in runs}
    free = [(f"backfill__{isoformat(date)}", date, after) for date, after in points]
    free = [it for it in free if it[0] not in ids and it[1] not in dates]
    if len(runs) + len(free) > MOST_RUNS or state.next_run + len(free) - 1 > LAST_NUMBER:
        raise Fault("too many", None)
    made = []
    for run_id, date, after in free:
        state, run = new_run(state, dag, run_id, "backfill", date, after)
        made.append(run)
    return state, made


def mark_instance(instance, to, now):
    """A running instance becomes failed where its run does, one that has not begun skipped; each where its run is a success."""
    if to == "failed":
        to = instance.state if instance.state in FINISHED else "failed" if instance.state == "running" else "skipped"
    return instance if instance.state == to else replace(instance, state=to, end=now, retry_at=None)


def mark(state, dag_id, run_id, to, now):
    run = the_run(state, dag_id, run_id)
    if to == "queued":
        marked = run if run.state == to else replace(run, state=to, start=None, end=None)
    else:
        marked = run if run.state == to else replace(run, state=to, end=now)
        marked = replace(marked, instances=tuple(mark_instance(it, to, now) for it in run.instances))
    return with_run(state, marked), marked


def delete_run(state, dag_id, run_id):
    gone = the_run(state, dag_id, run_id)
    return replace(state, runs=tuple(it for it in state.runs if it.number != gone.number))


def clear(state, dag_id, run_id=None, task_ids=None, only_failed=False, dry_run=True, start=None, end=None):
    """The state after a clear, and the rows that were chosen, in order of runs and of tasks."""
    dag = the_dag(state, dag_id)
    if run_id is not None:
        the_run(state, dag_id, run_id)
    for it in task_ids or []:
        if it not in [task.task_id for task in dag.tasks]:
            raise Fault("no such task", it)
    chosen, after = [], state
    for run in runs_of(state, dag_id):
        if run_id not in (None, run.run_id) or start is not None and run.date < start or end is not None and run.date > end:
            continue
        instances = []
        for task, instance in instances_of(state, run):
            if (task_ids is None or task.task_id in task_ids) and (not only_failed or instance.state in ("failed", "upstream_failed")):
                chosen.append({"dag_id": dag_id, "dag_run_id": run.run_id, "logical_date": isoformat(run.date), "task_id": task.task_id})
                instance, touched = Instance(None, None, None, instance.tries, instance.tries + task.retries, None), True
                instances.append((instance, touched))
            else:
                instances.append((instance, False))
        if any(touched for _, touched in instances):
            cleared = replace(run, instances=tuple(it for it, _ in instances))
            if run.state in ("success", "failed"):
                cleared = replace(cleared, state="queued", start=None, end=None)
            after = with_run(after, cleared)
    return state if dry_run else after, chosen
