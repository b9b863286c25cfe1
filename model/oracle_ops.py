"""The operations: their paths, what each requires, reads, answers and leaves: part of oracle.py.

An operation of the state is a function of a call to the state after it and its answer; one of the policy is a function to
the policy after it, or none where it only reads, and to its answer under a version. No answer stands for 204.
"""
from dataclasses import dataclass

import oracle_policy as policies
import oracle_rows
import oracle_state as states
from oracle_names import isoformat

PAGE = 100
DAGS, RUNS, INSTANCES, POOLS, VARIABLES, LOGS, ROLES, USERS = policies.RESOURCES
CREATE, READ, EDIT, DELETE = policies.ACTIONS


@dataclass
class Call:
    """What an operation is given, once it is permitted."""

    policy: object
    state: object
    entries: list
    user: str
    granted: set
    now: int
    names: list  # the parts of the path, in order
    limit: int = PAGE
    offset: int = 0
    input: object = None

    def reads(self, dag_id):
        return policies.reads(self.granted, dag_id)

    def reads_runs(self, dag_id):
        """Whether the user may see rows of the DAG's runs, and of their instances: who reads the runs and not the DAG sees none."""
        return self.reads(dag_id) and policies.meets(self.granted, READ, RUNS, dag_id, [])

    def page(self, name, rows, show):
        """A listing of the rows that the user may see: so many are passed over, then so many shown, and all are counted."""
        return {name: [show(it) for it in rows[self.offset : self.offset + self.limit]], "total_entries": len(rows)}


# ---- Operations of the state ---------------------------------------------------------------------------------


def list_dags(call):
    shown = [dag for name, dag in sorted(call.state.dags.items()) if call.reads(name)]
    return call.state, call.page("dags", shown, states.show_dag)


def show_dag(call):
    return call.state, states.show_dag(states.the_dag(call.state, *call.names))


def patch_dag(call):
    dag = states.replace(states.the_dag(call.state, *call.names), is_paused=call.input)
    return states.with_dag(call.state, dag), states.show_dag(dag)


def list_tasks(call):
    dag = states.the_dag(call.state, *call.names)
    return call.state, {"tasks": [states.show_task(dag, it) for it in dag.tasks], "total_entries": len(dag.tasks)}


def list_runs(call):
    states.the_dag(call.state, *call.names)
    return call.state, call.page("dag_runs", states.runs_of(call.state, *call.names), states.show_run)


def list_all_runs(call):
    return call.state, call.page("dag_runs", [it for it in call.state.runs if call.reads_runs(it.dag_id)], states.show_run)


def trigger_run(call):
    run_id, date = call.input
    state, run = states.trigger(call.state, *call.names, run_id, call.now if date is None else date)
    return state, states.show_run(run)


def backfill(call):
    """All new runs are answered at once: this is no page."""
    state, made = states.backfill(call.state, *call.names, *call.input)
    return state, {"dag_runs": [states.show_run(it) for it in made], "total_entries": len(made)}


def show_run(call):
    return call.state, states.show_run(states.the_run(call.state, *call.names))


def mark_run(call):
    state, run = states.mark(call.state, *call.names, call.input, call.now)
    return state, states.show_run(run)


def delete_run(call):
    return states.delete_run(call.state, *call.names), None


def clear_run(call):
    states.the_run(call.state, *call.names)
    state, chosen = states.clear(call.state, *call.names, **call.input)
    return state, {"task_instances": chosen}


def list_instances(call):
    run = states.the_run(call.state, *call.names)
    rows = states.instances_of(call.state, run)
    return call.state, call.page("task_instances", rows, lambda row: states.show_instance(run, *row))


def show_instance(call):
    return call.state, states.the_instance(call.state, *call.names)


def clear_instances(call):
    state, chosen = states.clear(call.state, *call.names, **call.input)
    return state, {"task_instances": chosen}


def list_pools(call):
    return call.state, call.page("pools", sorted(call.state.pools), lambda it: oracle_rows.show_pool(call.state, it))


def add_pool(call):
    state = oracle_rows.add_pool(call.state, *call.input)
    return state, oracle_rows.show_pool(state, call.input[0])


def show_pool(call):
    return call.state, oracle_rows.show_pool(call.state, *call.names)


def set_pool(call):
    state = oracle_rows.set_pool(call.state, *call.names, call.input)
    return state, oracle_rows.show_pool(state, *call.names)


def delete_pool(call):
    return oracle_rows.delete_pool(call.state, *call.names), None


def list_variables(call):
    return call.state, call.page("variables", sorted(call.state.variables), lambda it: oracle_rows.show_variable(call.state, it))


def add_variable(call):
    state = oracle_rows.add_variable(call.state, *call.input)
    return state, oracle_rows.show_variable(state, call.input[0])


def show_variable(call):
    return call.state, oracle_rows.show_variable(call.state, *call.names)


def set_variable(call):
    state = oracle_rows.set_variable(call.state, *call.names, call.input)
    return state, oracle_rows.show_variable(state, *call.names)


def delete_variable(call):
    return oracle_rows.delete_variable(call.state, *call.names), None


def list_entries(call):
    """The entries in the order of their numbers: those of DAGs that the user reads, and those that name no DAG. The others are not counted either."""
    reads = {None: True, **{it: call.reads(it) for it in call.state.dags}}
    shown = [it for it in call.entries if reads[it["dag_id"]]]
    return call.state, call.page("event_logs", shown, lambda it: {**it, "when": isoformat(it["when"])})


# ---- Operations of the policy --------------------------------------------------------------------------------
# Who may read roles or users sees all of them, in byte order of name.


def list_roles(call):
    return None, lambda version: call.page("roles", sorted(call.policy.roles), lambda it: policies.show_role(call.policy, it))


def show_role(call):
    if call.names[0] not in call.policy.roles:
        raise policies.Fault("no such role", call.names[0])
    return None, lambda version: policies.show_role(call.policy, *call.names)


def add_role(call):
    """A change answers the row as it then stands; a deletion nothing."""
    policy = policies.add_role(call.policy, *call.input)
    return policy, lambda version: policies.show_role(policy, call.input[0])


def set_role(call):
    policy = policies.set_role(call.policy, *call.names, call.input)
    return policy, lambda version: policies.show_role(policy, *call.names)


def drop_role(call):
    return policies.drop_role(call.policy, *call.names), lambda version: None


def list_users(call):
    return None, lambda version: call.page("users", sorted(call.policy.users), lambda it: policies.show_user(call.policy, it))


def show_user(call):
    policies.check_user_there(call.policy, *call.names)
    return None, lambda version: policies.show_user(call.policy, *call.names)


def add_user(call):
    policy = policies.add_user(call.policy, *call.input)
    return policy, lambda version: policies.show_user(policy, call.input[0])


def set_user(call):
    policy = policies.set_user(call.policy, *call.names, *call.input)
    return policy, lambda version: policies.show_user(policy, *call.names)


def drop_user(call):
    return policies.drop_user(call.policy, *call.names), lambda version: None


def sync(call):
    """It answers the DAG and the version that the sync made."""
    policy = policies.sync_dag(call.policy, *call.names, call.input)
    return policy, lambda version: {"dag_id": call.names[0], "policy_version": version}


def me(call):
    """Whoever brings a token that is somebody's may ask this."""
    return None, lambda version: policies.show_me(call.policy, version, call.user)
