"""Forms of traces that were written out by hand: what is taken, though it does not fit, and each reason for which a trace is refused, in the order of
docs/TRACES.md. Each row is a text; what stands around it is the configuration of examples/base.json, in a world of two sessions.
"""
import json

from worked_traces import AGREES, BASE

# Steps that do not fit give no answer; other members are ignored, and null counts as missing.
TAKEN = [
    '[{"look":1,"token":5,"at":"x"},null]',
    '[{"look":1,"tick":null},null]',
    '[{"act":0,"method":"GET","target":"/api/v1/dags","body":"","now":"2024-01-01T00:00:00Z"},null]',
    '[{"act":0,"token":"","method":"PATCH","target":"/api/v1/dags/none","body":"no JSON","now":"2024-01-01T00:00:00Z"},null]',
    '[{"publish":0,"at":18446744073709551615,"token":"admin","method":"POST","target":"/api/v1/roles","body":""},null]',
    r'[{"me":0,"target":"/own/me","method":7},{"status":401,"version":0,"body":"{\"detail\":\"authentication required\",\"status\":401,\"title\":\"Unauthorized\",\"type\":\"about:blank\"}"}]',
    '[{"report":{"run":18446744073709551615,"task":"t","try":0,"outcome":"success"},"now":"2024-01-01T00:00:00Z"},{"status":404,"version":0,"seq":0,"body":"NoSuchInstance","more":5}]',
    '[{"tick":"2024-01-01T00:00:00Z"},{"body":"same","seq":0,"version":0,"status":200}]',
    '[{"claim":"9998-12-31T23:59:59.999999Z"},{"status":200,"version":0,"seq":0,"body":"none"}]',
]
# Steps, and answers, of no form of theirs.
REFUSED = [
    '[5,null]',
    '[null,null]',
    '[{},null]',
    '[{"wait":0},null]',
    '[{"look":null},null]',
    # Of two kinds.
    '[{"look":0,"tick":"2024-01-01T00:00:00Z"},null]',
    # Sessions.
    '[{"look":2},null]',
    '[{"look":-1},null]',
    '[{"look":0.0},null]',
    '[{"look":"0"},null]',
    '[{"act":2,"method":"GET","target":"/api/v1/dags","body":"","now":"2024-01-01T00:00:00Z"},null]',
    '[{"me":2,"target":"/own/me"},null]',
    '[{"publish":2,"at":0,"method":"POST","target":"/api/v1/roles","body":""},null]',
    # Tokens.
    '[{"act":0,"token":5,"method":"GET","target":"/api/v1/dags","body":"","now":"2024-01-01T00:00:00Z"},null]',
    '[{"me":0,"token":true,"target":"/own/me"},null]',
    '[{"publish":0,"at":0,"token":[],"method":"POST","target":"/api/v1/roles","body":""},null]',
    # What is no operation of the kind.
    '[{"act":0,"method":"GET","target":"/api/v1/version","body":"","now":"2024-01-01T00:00:00Z"},null]',
    '[{"act":0,"method":"GET","target":"/api/v1/roles","body":"","now":"2024-01-01T00:00:00Z"},null]',
    '[{"act":0,"method":"GET","target":"/own/me","body":"","now":"2024-01-01T00:00:00Z"},null]',
    '[{"act":0,"method":"GET","target":"/api/v1/nothing","body":"","now":"2024-01-01T00:00:00Z"},null]',
    '[{"act":0,"method":"PUT","target":"/api/v1/dags","body":"","now":"2024-01-01T00:00:00Z"},null]',
    '[{"act":0,"method":"get","target":"/api/v1/dags","body":"","now":"2024-01-01T00:00:00Z"},null]',
    '[{"act":0,"method":"GET","target":"/api/v1/dags/%zz","body":"","now":"2024-01-01T00:00:00Z"},null]',
    '[{"me":0,"target":"/api/v1/pools"},null]',
    '[{"me":0,"target":"/api/v1/eventLogs"},null]',
    '[{"me":0,"target":"/own/dags/b/sync"},null]',
    '[{"me":0,"target":"/own/nothing"},null]',
    '[{"publish":0,"at":0,"method":"GET","target":"/api/v1/roles","body":""},null]',
    '[{"publish":0,"at":0,"method":"GET","target":"/own/me","body":""},null]',
    '[{"publish":0,"at":0,"method":"POST","target":"/api/v1/pools","body":""},null]',
    '[{"publish":0,"at":0,"method":"PUT","target":"/api/v1/roles","body":""},null]',
    # Members that are missing, or of another kind.
    '[{"act":0,"target":"/api/v1/dags","body":"","now":"2024-01-01T00:00:00Z"},null]',
    '[{"act":0,"method":"GET","body":"","now":"2024-01-01T00:00:00Z"},null]',
    '[{"act":0,"method":"GET","target":"/api/v1/dags","now":"2024-01-01T00:00:00Z"},null]',
    '[{"act":0,"method":"GET","target":"/api/v1/dags","body":""},null]',
    '[{"act":0,"method":"GET","target":"/api/v1/dags","body":"","now":"yesterday"},null]',
    '[{"act":0,"method":"GET","target":"/api/v1/dags","body":"","now":0},null]',
    '[{"me":0},null]',
    '[{"publish":0,"method":"POST","target":"/api/v1/roles","body":""},null]',
    '[{"publish":0,"at":-1,"method":"POST","target":"/api/v1/roles","body":""},null]',
    '[{"publish":0,"at":18446744073709551616,"method":"POST","target":"/api/v1/roles","body":""},null]',
    '[{"tick":"1969-12-31T23:59:59Z"},null]',
    '[{"tick":0},null]',
    '[{"claim":"9999-01-01T00:00:00Z"},null]',
    # Reports.
    '[{"report":{"run":1,"task":"t","try":1,"outcome":"success"}},null]',
    '[{"report":5,"now":"2024-01-01T00:00:00Z"},null]',
    '[{"report":{"run":-1,"task":"t","try":1,"outcome":"success"},"now":"2024-01-01T00:00:00Z"},null]',
    '[{"report":{"run":1,"task":"t t","try":1,"outcome":"success"},"now":"2024-01-01T00:00:00Z"},null]',
    '[{"report":{"run":1,"task":"t","try":"1","outcome":"success"},"now":"2024-01-01T00:00:00Z"},null]',
    '[{"report":{"run":1,"task":"t","try":1,"outcome":"lost"},"now":"2024-01-01T00:00:00Z"},null]',
    # Answers.
    '[{"look":0},5]',
    '[{"look":0},{}]',
    '[{"look":0},{"status":"200","version":0,"seq":0,"body":""}]',
    '[{"look":0},{"status":-200,"version":0,"seq":0,"body":""}]',
    '[{"look":0},{"status":200,"version":-1,"seq":0,"body":""}]',
    '[{"look":0},{"status":200,"version":0,"seq":0.5,"body":""}]',
    '[{"look":0},{"status":200,"version":0,"seq":0}]',
    '[{"look":0},{"status":200,"version":0,"seq":0,"body":{}}]',
]
WHOLE = [
    ("syntax", ""),
    ("syntax", "{"),
    ("syntax", '{"config":{}} 1'),
    ("trace", "[]"),
    ("trace", "5"),
    ("trace", "{}"),
    ("trace", '{"config":null}'),
    ("trace", '{"sessions":1,"steps":[]}'),
    # what is wrong with the configuration comes before the rest
    ("shape", '{"config":5}'),
    ("admin", '{"config":{}}'),
    ("admin", '{"config":{},"sessions":1,"steps":[5]}'),
    ("name", '{"config":{"roles":[{"name":"","actions":[]}]},"sessions":-1,"steps":5}'),
    ("admin", '{"config":{"history_limit":0},"sessions":-1}'),
]
# What stands behind the configuration.
BEHIND = [
    ("trace", ""),
    ("trace", ',"sessions":1'),
    ("trace", ',"steps":[]'),
    ("agrees", ',"sessions":0,"steps":[]'),
    ("agrees", ',"sessions":1024,"steps":[]'),
    ("trace", ',"sessions":1025,"steps":[]'),
    ("trace", ',"sessions":-1,"steps":[]'),
    ("trace", ',"sessions":1.0,"steps":[]'),
    ("trace", ',"sessions":"1","steps":[]'),
    ("trace", ',"sessions":null,"steps":[]'),
    ("trace", ',"sessions":1,"steps":null'),
    ("trace", ',"sessions":1,"steps":{}'),
    ("trace", ',"sessions":1,"steps":[5]'),
    ("trace", ',"sessions":1,"steps":[[]]'),
    ("trace", ',"sessions":1,"steps":[[{"look":0}]]'),
    ("trace", ',"sessions":1,"steps":[[{"look":0},null,null]]'),
    ("trace", ',"sessions":1,"steps":[[{"look":1},null]]'),
    ("agrees", ',"sessions":2,"steps":[[{"look":1},null]]'),
]
MOST_BYTES = 16 * 1024 * 1024
# A step whose answer is another, before one that is refused.
OTHER = '[{"look":0},{"status":999,"body":""}],'


def ended(reason):
    return AGREES if reason == "agrees" else (3, b"", f"afplane: configuration refused: {reason}\n".encode())


def trace(behind):
    return f'{{"config":{json.dumps(BASE)}{behind}}}'.encode()


def step(text):
    return trace(f',"sessions":2,"steps":[{text}]')


FORMS = [
    *((f"a step that is taken {n}", step(it), AGREES) for n, it in enumerate(TAKEN)),
    *((f"a step of no form {n}", step(it), ended("trace")) for n, it in enumerate(REFUSED)),
    *((f"a step of no form {n}, behind another answer", step(OTHER + it), ended("trace")) for n, it in enumerate(REFUSED)),
    *((f"a whole text {n}", it.encode(), ended(reason)) for n, (reason, it) in enumerate(WHOLE)),
    *((f"behind the configuration {n}", trace(it), ended(reason)) for n, (reason, it) in enumerate(BEHIND)),
    *((f"{n} blanks", b" " * n, ended(reason)) for reason, n in (("syntax", MOST_BYTES), ("unreadable", MOST_BYTES + 1))),
]
