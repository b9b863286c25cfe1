// What changed with which version of the policy. The server keeps no record of that, so this compares what was read since the sign-in.

import { listed } from "./format.js";
import { v1 } from "./api.js";

const ROWS = 100, MOST_LINES = 200;

const differing = (before, after) => [[...after].filter((it) => !before.has(it)), [...before].filter((it) => !after.has(it))];

/** In words what a set has gained and lost. */
function change(before, after) {
  const [more, less] = differing(before, after);
  return [more.length ? `gained ${listed(more)}` : "", less.length ? `lost ${listed(less)}` : ""].filter(Boolean).join(", ");
}

export const permissionsOf = (role) => role.actions.map((it) => `${it.resource.name}.${it.action.name}`);

/** Rows of roles or users by name, as they were under a version. */
class Known {
  constructor(kind) {
    Object.assign(this, { kind, rows: new Map(), total: undefined, version: undefined });
  }

  /** Takes the first page of a list, and returns what has changed. All rows are compared only where they are on one page. */
  take(rows, total, version) {
    const next = new Map(rows), changes = [];
    const isWhole = this.total !== undefined && this.total <= ROWS && total <= ROWS;
    if (this.version !== undefined && this.version !== version) {
      for (const [name, after] of next) {
        const before = this.rows.get(name);
        const words = before ? change(before, after) : "";
        if (words) changes.push(`${this.kind} ${name} ${words}`);
        else if (!before && isWhole) changes.push(`${this.kind} ${name} was added${after.size ? `, with ${listed([...after])}` : ""}`);
      }
      if (isWhole) for (const name of this.rows.keys()) if (!next.has(name)) changes.push(`${this.kind} ${name} was deleted`);
    }
    const from = this.version;
    Object.assign(this, { rows: next, total, version });
    return { from, changes };
  }
}

export class PolicyWatch {
  constructor() {
    Object.assign(this, { roles: new Known("role"), users: new Known("user"), mine: new Map(), lines: [], own: new Map() });
    this.began = undefined;
  }

  /** What the owner of the token may do: what is gained and lost since the last time. */
  me(me) {
    const next = new Set(me.permissions), before = this.permissions, from = this.meVersion;
    Object.assign(this, { permissions: next, meVersion: me.policy_version, began: this.began ?? me.policy_version });
    const words = before ? change(before, next) : "";
    if (words) this.add(from, me.policy_version, [`you ${words}`]);
    return words ? [words] : [];
  }

  sources(permits) {
    const roles = { key: "watch-roles", target: `${v1("roles")}?limit=${ROWS}`, isQuiet: true, every: 4,
      apply: (json, came) => this.takeRoles(json, came.policy) };
    const users = { key: "watch-users", target: `${v1("users")}?limit=${ROWS}`, isQuiet: true, every: 4,
      apply: (json, came) => this.takeUsers(json, came.policy) };
    return [permits.has("Roles", "can_read") && roles, permits.has("Users", "can_read") && users].filter(Boolean);
  }

  takeRoles(json, version) {
    const { from, changes } = this.roles.take(json.roles.map((it) => [it.name, new Set(permissionsOf(it))]), json.total_entries, version);
    if (changes.length) this.add(from, version, changes);
  }

  takeUsers(json, version) {
    const { from, changes } = this.users.take(json.users.map((it) => [it.username, new Set(it.roles.map((role) => role.name))]), json.total_entries, version);
    if (changes.length) this.add(from, version, changes);
  }

  /** A change that was asked for here: its version is exact. */
  byMe(version, words) {
    this.own.set(version, words);
    this.add(version - 1, version, []);
  }

  add(from, to, changes) {
    const found = this.lines.find((it) => it.to === to && it.from === from);
    if (found) found.changes.push(...changes.filter((it) => !found.changes.includes(it)));
    else this.lines.unshift({ from, to, seen: Date.now(), changes });
    this.lines.sort((a, b) => b.to - a.to || b.from - a.from);
    this.lines.length = Math.min(this.lines.length, MOST_LINES);
  }
}
