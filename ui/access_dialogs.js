// Changes of roles and users. Each makes a version of the policy.

import { h } from "./dom.js";
import { v1, path } from "./api.js";
import { done } from "./dialog.js";
import { ACTIONS, ITS_RUNS, ONE_DAG, RESOURCES, VERBS, split } from "./permits.js";
import { permissionsOf } from "./versions.js";
import { listed } from "./format.js";
import { button, field } from "./widgets.js";

const MOST = 100;
export const DEFAULT_ROLES = ["Admin", "Op", "Public", "User", "Viewer"];

/** All rows of a list, page by page. */
async function whole(app, target, name) {
  const rows = [];
  for (let total = 1; rows.length < total; ) {
    const { json } = await app.api.get(`${target}?limit=${MOST}&offset=${rows.length}`);
    total = json.total_entries;
    if (!json[name].length) break;
    rows.push(...json[name]);
  }
  return rows;
}

/** A change of the policy, which is remembered as made here. */
async function changed(app, method, target, body, words) {
  const came = await done(app, method, target, body, (it) => `${words}: policy version ${it.policy}.`);
  app.watch.byMe(came.policy, words);
  return true;
}

const named = (names) => names.map((name) => ({ name }));

// ---- Users ----

function roleBoxes(known, chosen) {
  const names = [...new Set([...known, ...chosen])].sort();
  return h("fieldset", { class: "boxes" }, h("legend", null, "Roles"),
    names.map((it) => h("label", { key: it }, h("input", { type: "checkbox", name: "role", value: it, checked: chosen.includes(it) }), " ",
    h("span", { class: "id" }, it))));
}

const chosenRoles = (form) => named([...form.querySelectorAll("input[name=role]:checked")].map((it) => it.value));

const asHex = (buffer) => [...new Uint8Array(buffer)].map((it) => it.toString(16).padStart(2, "0")).join("");

async function digest(token) {
  return asHex(await crypto.subtle.digest("SHA-256", new TextEncoder().encode(token)));
}

function newToken() {
  const bytes = crypto.getRandomValues(new Uint8Array(32));
  return btoa(String.fromCharCode(...bytes)).replace(/\+/g, "-").replace(/\//g, "_").replace(/=+$/, "");
}

/** The field of a new token: what is sent is its digest. */
function tokenField() {
  const make = (event) => {
    event.currentTarget.form.elements.token.value = newToken();
  };
  return field("Token", h("span", { class: "joined" }, h("input", { name: "token", required: true, autocomplete: "off", spellcheck: "false", maxlength: 200 }),
    button("Make one", make)),
    "Copy it now: only its SHA-256 is sent, and it is not shown again.");
}

async function roleNames(app, chosen) {
  return app.permits.has("Roles", "can_read") ? (await whole(app, v1("roles"), "roles")).map((it) => it.name) : [...DEFAULT_ROLES, ...chosen];
}

/** Opens a dialog once what it shows was read; what goes wrong is said. */
async function opened(app, read, open) {
  try {
    open(await read());
  } catch (why) {
    if (why.status === undefined) throw why;
    app.notify(app.inWords(why), true);
  }
}

export function addUserDialog(app) {
  return opened(app, () => roleNames(app, []), (known) => {
    const act = async ({ name, token }, form) => changed(app, "POST", v1("users"),
      { username: name, roles: chosenRoles(form), token_sha256: await digest(token) }, `user ${name} added`);
    const content = h("div", null, field("Name", h("input", { name: "name", required: true, maxlength: 64, autofocus: true })), roleBoxes(known, []),
      tokenField());
    app.dialogs.open("Add a user", (shown) => app.dialogs.form(shown, "Add", act, content));
  });
}

export function userRolesDialog(app, user) {
  const chosen = user.roles.map((it) => it.name);
  return opened(app, () => roleNames(app, chosen), (known) => {
    const act = (_, form) => {
      const roles = chosenRoles(form);
      return changed(app, "PATCH", v1("users", user.username), { roles },
        `roles of ${user.username} set to ${roles.length ? listed(roles.map((it) => it.name)) : "none"}`);
    };
    const content = h("div", null, h("p", null, "The change counts from the next request of this user on."), roleBoxes(known, chosen));
    app.dialogs.open(`Roles of ${user.username}`, (shown) => app.dialogs.form(shown, "Set the roles", act, content));
  });
}

export function tokenDialog(app, user) {
  const act = async ({ token }) => changed(app, "PATCH", v1("users", user.username), { token_sha256: await digest(token) },
    `token of ${user.username} replaced`);
  const content = h("div", null, h("p", null, "The old token is then nobody's."), tokenField());
  app.dialogs.open(`Token of ${user.username}`, (shown) => app.dialogs.form(shown, "Replace the token", act, content));
}

export function deleteUserDialog(app, user) {
  const act = () => changed(app, "DELETE", v1("users", user.username), undefined, `user ${user.username} deleted`);
  app.dialogs.ask("Delete a user", [`Delete the user ${user.username}? The token is then nobody's.`, "What the user did stays in the event log."],
    "Delete the user", act);
}

// ---- Roles ----

const DAG_ACTIONS = ACTIONS.slice(1);

/** Check boxes for permissions: `held` is the set that they change. */
function permissionBoxes(app, held, state) {
  const box = (resource, action) => {
    const permission = `${resource}.${action}`;
    const flip = (event) => {
      if (event.target.checked) held.add(permission);
      else held.delete(permission);
    };
    return h("td", { key: action }, resource.startsWith(ONE_DAG) && action === "can_create" ? null : h("input",
      { type: "checkbox", "aria-label": `${VERBS[action]} ${resource}`, checked: held.has(permission), onchange: flip }));
  };
  // (of each DAG that is named, or whose runs are, there is a row for the DAG and one for its runs)
  const singles = [...held, ...state.added].map((it) => split(it)[0]).filter((it) => it.startsWith(ONE_DAG) || it.startsWith(ITS_RUNS));
  const ids = [...new Set(singles.map((it) => it.slice(it.indexOf(":") + 1)))].sort();
  const dags = [...ids.map((it) => `${ONE_DAG}${it}`), ...ids.map((it) => `${ITS_RUNS}${it}`)];
  const add = (event) => {
    const input = event.currentTarget.form.elements.dag;
    if (!input.value.trim()) return;
    held.add(`${ONE_DAG}${input.value.trim()}.can_read`);
    state.added.push(`${ONE_DAG}${input.value.trim()}.can_read`);
    input.value = "";
    app.update();
  };
  return h("div", null,
    h("div", { class: "scroll" }, h("table", { class: "rows boxes" },
      h("thead", null, h("tr", null, h("th", { scope: "col" }, "Resource"), ACTIONS.map((it) => h("th", { key: it, scope: "col" }, VERBS[it])))),
      h("tbody", null, [...RESOURCES,
        ...dags].map((resource) => h("tr", { key: resource }, h("th", { scope: "row", class: "id" }, resource), ACTIONS.map((it) => box(resource, it))))))),
    field("A single DAG", h("span", { class: "joined" }, h("input", { name: "dag", maxlength: 250, pattern: "[A-Za-z0-9_.\\-]*" }), button("Add a row", add)),
      "its id; it need not exist yet"));
}

const actionsOf = (held) => [...held].map((it) => split(it)).map(([resource, action]) => ({ action: { name: action }, resource: { name: resource } }));

export function addRoleDialog(app) {
  const held = new Set(), state = { added: [] };
  const name = field("Name", h("input", { name: "name", required: true, maxlength: 64, autofocus: true }));
  const act = (values) => changed(app, "POST", v1("roles"), { name: values.name, actions: actionsOf(held) }, `role ${values.name} added`);
  app.dialogs.open("Add a role", (shown) => app.dialogs.form(shown, "Add", act, h("div", null, name, permissionBoxes(app, held, state))));
}

export function roleDialog(app, role) {
  const held = new Set(permissionsOf(role)), state = { added: [...held] };
  const act = () => changed(app, "PATCH", v1("roles", role.name), { actions: actionsOf(held) }, `permissions of ${role.name} set`);
  app.dialogs.open(`Permissions of ${role.name}`, (shown) => app.dialogs.form(shown, "Set the permissions", act, permissionBoxes(app, held, state)));
}

export function deleteRoleDialog(app, role) {
  const act = () => changed(app, "DELETE", v1("roles", role.name), undefined, `role ${role.name} deleted`);
  app.dialogs.ask("Delete a role", [`Delete the role ${role.name}?`, "A role that a user has cannot be deleted."], "Delete the role", act);
}

// ---- One DAG ----

// The kinds of a sync: the member, how its resource begins, the actions, and what a box and a column say besides the action.
const KINDS = [["DAGs", ONE_DAG, DAG_ACTIONS, ""], ["DAG Runs", ITS_RUNS, ACTIONS, " runs"]];

/** What roles may do on one DAG and its runs alone: a sync sets all of it at once, so all of it is sent. */
export function accessDialog(app, id) {
  return opened(app, () => whole(app, v1("roles"), "roles"), (roles) => {
    const heldOn = (role, resource) => new Set(permissionsOf(role).map(split).filter((one) => one[0] === resource).map((one) => one[1]));
    const held = new Map(roles.map((it) => [it.name, KINDS.map(([, begin]) => heldOn(it, `${begin}${id}`))]));
    const box = (name, kind, action) => {
      const its = held.get(name)[kind], words = `${name} may ${VERBS[action]}${KINDS[kind][3]}`;
      return h("td", { key: `${kind} ${action}` }, h("input", { type: "checkbox", "aria-label": words, checked: its.has(action),
        onchange: (event) => (event.target.checked ? its.add(action) : its.delete(action)) }));
    };
    const listsOf = (sets) => Object.fromEntries(KINDS.map(([member], kind) => [member, [...sets[kind]]]));
    const act = () => changed(app, "POST", `/own${path("dags", id, "sync")}`,
      { access_control: Object.fromEntries([...held].filter(([name, sets]) => name !== "Admin" && sets.some((it) => it.size)).map(([name,
        sets]) => [name, listsOf(sets)])) }, `access to ${id} set`);
    const rows = roles.filter((it) => it.name !== "Admin");
    const cells = (of) => KINDS.flatMap(([, , actions], kind) => actions.map((action) => of(kind, action)));
    const content = h("div", null,
      h("p", null, "What roles may do on this DAG and its runs alone. What they may do on all DAGs and all runs stays, and so does what Admin may do."),
      h("div", { class: "scroll" }, h("table", { class: "rows boxes" },
        h("thead", null, h("tr", null, h("th", { scope: "col" }, "Role"),
          cells((kind, action) => h("th", { key: `${kind} ${action}`, scope: "col" }, `${VERBS[action]}${KINDS[kind][3]}`)))),
        h("tbody", null,
          rows.map((it) => h("tr", { key: it.name }, h("th", { scope: "row", class: "id" }, it.name), cells((kind, action) => box(it.name, kind, action))))))));
    app.dialogs.open(`Access to ${id}`, (shown) => app.dialogs.form(shown, "Set the access", act, content));
  });
}
