// Who may do what: roles by resources as a matrix, the users with their roles, and what changed with which version of the policy.

import { h } from "./dom.js";
import { v1 } from "./api.js";
import { clock } from "./format.js";
import { permissionsOf } from "./versions.js";
import { DEFAULT_ROLES, addRoleDialog, addUserDialog, deleteRoleDialog, deleteUserDialog, roleDialog, tokenDialog, userRolesDialog } from "./access_dialogs.js";
import { key, matrixCells, matrixColumns } from "./matrix.js";
import { button, empty, head, loading, pager, table, to, trouble } from "./widgets.js";

const SIZE = 50;
const TABS = [["roles", "Roles"], ["users", "Users"], ["versions", "Versions"]];

export class AccessView {
  constructor(app) {
    Object.assign(this, { app, place: "access", rows: {}, totals: {}, found: null, query: {} });
  }

  take({ query }) {
    this.query = query;
  }

  title() {
    return "Access";
  }

  get tab() {
    const { permits } = this.app, wanted = this.query.tab;
    return TABS.some((it) => it[0] === wanted) ? wanted : permits.has("Roles", "can_read") || !permits.has("Users", "can_read") ? "roles" : "users";
  }

  get at() {
    return /^\d+$/.test(this.query.at || "") ? Number(this.query.at) : 0;
  }

  sources() {
    const { tab } = this;
    if (tab === "versions") return [];
    if (tab === "users" && this.query.user) return [{ key: "user", target: v1("users", this.query.user), every: 2,
      apply: (json) => (this.found = json) && undefined, refused: () => (this.found = null) }];
    const apply = (json) => {
      this.rows[tab] = json[tab];
      this.totals[tab] = json.total_entries;
    };
    return [{ key: tab, target: `${v1(tab)}?limit=${SIZE}&offset=${this.at}`, every: 2, apply }];
  }

  render() {
    const { app, tab } = this, { permits } = app;
    const add = tab === "roles" && permits.has("Roles", "can_create") ? button("Add a role …", () => addRoleDialog(app), { class: "first" })
      : tab === "users" && permits.has("Users", "can_create") ? button("Add a user …", () => addUserDialog(app), { class: "first" }) : null;
    const offered = TABS.filter(([name]) => name === "versions" || name === tab || permits.has(name === "roles" ? "Roles" : "Users", "can_read"));
    return h("section", { class: "access" }, head("Access", add),
      h("nav", { class: "tabs", "aria-label": "Parts" },
        offered.map(([name, words]) => h("a", { key: name, href: to(["access"], { tab: name }), "aria-current": name === tab ? "page" : null }, words))),
      tab === "versions" ? this.versions() : tab === "users" ? this.users() : this.roles());
  }

  page(names, content) {
    const { tab, at } = this, why = this.app.poller.error(tab);
    if (why) return trouble(why, this.app.me);
    if (!this.rows[tab]) return loading();
    return [this.rows[tab].length ? content(this.rows[tab]) : empty(`No ${names} here.`),
      pager(at, SIZE, this.totals[tab], (next) => to(["access"], { tab, at: next || undefined }))];
  }

  roles() {
    const { app } = this, { permits } = app, mayEdit = permits.has("Roles", "can_edit"), mayDelete = permits.has("Roles",
      "can_delete"), hasActs = mayEdit || mayDelete;
    const columns = [["Role", "row"], ...matrixColumns, ...(hasActs ? [["", "act"]] : [])];
    const acts = (role) => (DEFAULT_ROLES.includes(role.name) ? h("span", { class: "faint" }, "default role") : [
      mayEdit ? button("Permissions …", () => roleDialog(app, role), { "aria-label": `Permissions of ${role.name}` }) : null,
      mayDelete ? button("Delete …", () => deleteRoleDialog(app, role), { class: "danger", "aria-label": `Delete ${role.name}` }) : null]);
    return h("div", { key: "roles" }, key(), this.page("role",
      (rows) => table("Roles by resources", columns,
      rows.map((it) => ({ key: it.name, cells: [h("span", { class: "id" }, it.name), ...matrixCells(permissionsOf(it)), ...(hasActs ? [acts(it)] : [])] })))));
  }

  users() {
    const { app, query } = this;
    const find = h("form", { class: "filters", role: "search", onsubmit: (event) => {
      event.preventDefault();
      app.choose({ user: event.target.elements.user.value, at: undefined });
    } }, h("input", { type: "search", name: "user", "aria-label": "Find a user by the whole name", placeholder: "Whole name of a user", value: query.user || "", maxlength: 64 }), h("button", { type: "submit" }, "Find"),
    query.user ? button("All users", () => app.choose({ user: undefined })) : null);
    if (query.user) {
      const why = app.poller.error("user");
      return h("div", { key: "users" }, find, why ? trouble(why, app.me) : this.found ? this.userTable([this.found]) : loading());
    }
    return h("div", { key: "users" }, find, this.page("user", (rows) => this.userTable(rows)));
  }

  userTable(rows) {
    const { app } = this, { permits } = app, mayEdit = permits.has("Users", "can_edit"), mayDelete = permits.has("Users",
      "can_delete"), hasActs = mayEdit || mayDelete;
    const columns = [["User", "row"], ["Roles", ""], ...(hasActs ? [["", "act"]] : [])];
    return table("Users", columns, rows.map((it) => ({ key: it.username, cells: [
      h("span", { class: "id" }, it.username), it.roles.length ? h("ul", { class: "chips" },
        it.roles.map((role, at) => h("li", { key: at, class: "id" }, role.name))) : h("span", { class: "faint" }, "no role"),
      ...(hasActs ? [[mayEdit ? button("Roles …", () => userRolesDialog(app, it), { "aria-label": `Roles of ${it.username}` }) : null,
        mayEdit ? button("Token …", () => tokenDialog(app, it), { "aria-label": `Token of ${it.username}` }) : null,
        mayDelete ? button("Delete …", () => deleteUserDialog(app, it), { class: "danger", "aria-label": `Delete ${it.username}` }) : null]] : [])] })));
  }

  versions() {
    const { app } = this, { watch } = app;
    const columns = [["Version", "number"], ["Seen", ""], ["What changed", "text"]];
    const rows = watch.lines.map((it) => ({ key: `${it.from}-${it.to}`, cells: [
      it.from === it.to - 1 ? it.to : `${it.from + 1} to ${it.to}`, `${clock(it.seen)} UTC`,
      h("ul", { class: "changes" }, watch.own.has(it.to) ? h("li", { key: "own" }, h("strong", null, "by you: "), watch.own.get(it.to)) : null,
        it.changes.map((words) => h("li", { key: words }, words)), !it.changes.length && !watch.own.has(it.to) ? h("li", { key: "none" },
          "nothing that this page has read") : null)] }));
    return h("div", { key: "versions" },
      h("p", null, `The policy is at version ${app.seenPolicy ?? app.me.policy_version}; you signed in at version ${watch.began}.`),
      h("p", { class: "hint" },
        "The server keeps no record of what changed with a version, nor of who made it. This list compares what this page has read since you signed in: what you may do, and of the roles and users that you may read the first 100."),
      rows.length ? table("Versions", columns, rows) : empty("No version was made since then."));
  }
}
