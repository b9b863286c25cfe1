"""Pools and variables of the state, and what each operation makes of them, put plainly: part of oracle.py."""
from dataclasses import replace

from oracle_policy import Fault
from oracle_state import instances_of

MOST_POOLS, MOST_VARIABLES = 65536, 65536


def slots_in(state, pool, *states):
    """The slots of a pool that its instances in these states hold."""
    return sum(
        task.pool_slots for run in state.runs for task, it in instances_of(state, run) if task.pool == pool and it.state in states
    )


def show_pool(state, name):
    if name not in state.pools:
        raise Fault("no such pool", name)
    occupied, slots = slots_in(state, name, "queued", "running"), state.pools[name]
    return {
        "name": name,
        "occupied_slots": occupied,
        "open_slots": max(0, slots - occupied),
        "queued_slots": slots_in(state, name, "queued"),
        "running_slots": slots_in(state, name, "running"),
        "slots": slots,
    }


def add_pool(state, name, slots):
    if name in state.pools:
        raise Fault("exists", name)
    if len(state.pools) >= MOST_POOLS:
        raise Fault("too many", None)
    return replace(state, pools={**state.pools, name: slots})


def set_pool(state, name, slots):
    show_pool(state, name)
    return replace(state, pools={**state.pools, name: slots})


def delete_pool(state, name):
    show_pool(state, name)
    if name == "default_pool":
        raise Fault("default pool", None)
    if any(task.pool == name for dag in state.dags.values() for task in dag.tasks):
        raise Fault("pool in use", name)
    return replace(state, pools={it: slots for it, slots in state.pools.items() if it != name})


def show_variable(state, key):
    if key not in state.variables:
        raise Fault("no such variable", key)
    return {"key": key, "value": state.variables[key]}


def add_variable(state, key, value):
    if key in state.variables:
        raise Fault("exists", key)
    if len(state.variables) >= MOST_VARIABLES:
        raise Fault("too many", None)
    return replace(state, variables={**state.variables, key: value})


def set_variable(state, key, value):
    show_variable(state, key)
    return replace(state, variables={**state.variables, key: value})


def delete_variable(state, key):
    show_variable(state, key)
    return replace(state, variables={it: value for it, value in state.variables.items() if it != key})
