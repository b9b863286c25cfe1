// What stands around a view: the ways to the other views, whose page it is, how old it is, and what is wrong.

import { h } from "./dom.js";
import { ago, clock, count } from "./format.js";
import { canSend } from "./api.js";
import { button, head, link, trouble } from "./widgets.js";

/** The views that are offered: those for which there may be something to read. */
const PLACES = [
  ["dags", "DAGs", (may) => may.onSomeDag("can_read")],
  ["runs", "Runs", (may) => may.readsSomeRuns()],
  ["pools", "Pools", (may) => may.has("Pools", "can_read")],
  ["variables", "Variables", (may) => may.has("Variables", "can_read")],
  ["events", "Event log", (may) => may.has("Audit Logs", "can_read")],
  ["access", "Access", (may) => may.has("Roles", "can_read") || may.has("Users", "can_read")],
];

function places(app) {
  const here = app.view ? app.view.place : "";
  return h("nav", { class: "places", "aria-label": "Views" }, h("ul", null, PLACES.filter((it) => it[2](app.permits)).map(([name, words]) =>
    h("li", { key: name }, h("a", { href: `#/${name}`, "aria-current": name === here ? "page" : null }, words)))));
}

function age(app) {
  const { poller } = app;
  const found = poller.ages();
  if (!found) return h("span", { class: "age" }, "reading …");
  const [least, most] = found.map((it) => Math.round(it / 1000) * 1000);
  const words = most - least >= 2000 ? `${least < 1500 ? "now" : ago(least).replace(" ago", "")} to ${ago(most)}` : ago(most);
  const why = "How long ago the server gave what is shown. Parts of this page are read one after another.";
  return h("span", { class: `age${poller.goneSince ? " is-old" : ""}`, title: why }, h("span", { class: "wide" }, "Updated "), words);
}

function top(app) {
  const { me } = app;
  return h("div", { class: "top" },
    h("a", { class: "brand", href: "#/dags" }, h("span", { class: "logo", "aria-hidden": "true" }), "afplane"),
    places(app),
    h("div", { class: "who" },
      age(app),
      h("span", { class: "version", title: "The version of roles and users under which the last response was decided" },
        `policy ${app.seenPolicy ?? me.policy_version}`),
      h("a", { class: "user", href: "#/me", title: "Who you are, and what you may do" }, me.username),
      button("Sign out", () => app.signOut(), { class: "plain" })));
}

function banner(app) {
  const { poller } = app;
  if (poller.goneSince === null) return null;
  const wait = Math.max(0, Math.ceil((poller.nextAt - Date.now()) / 1000));
  const ages = poller.ages();
  return h("div", { class: "banner", role: "alert", key: "banner" },
    h("p", null, h("strong", null, "The server does not answer"), ` since ${clock(poller.goneSince)}: ${poller.goneWhy}.`),
    h("p", { "aria-live": "off" }, ages ? `What is shown is ${ago(ages[1]).replace(" ago", "")} old. ` : "",
      wait ? `Next try in ${count(wait, "second")}. ` : "Trying … "),
    button("Try now", () => poller.retry()));
}

function notices(app) {
  return h("div", { class: "notices", role: "status", "aria-live": "polite", key: "notices" }, app.notices.map((it) =>
    h("div", { key: it.key, class: `notice${it.isBad ? " is-bad" : ""}` }, h("p", null, it.words),
      button("Dismiss", () => app.dismiss(it), { class: "plain", "aria-label": "Dismiss this message" }))));
}

export function frame(app) {
  return h("div", { class: "frame", key: "frame" },
    h("a", { class: "skip", href: "#title", onclick: (event) => {
      event.preventDefault();
      const title = document.getElementById("title");
      if (title) title.focus();
    } }, "Skip to the content"),
    top(app),
    banner(app),
    h("main", { key: app.viewKey }, app.impossible ? h("section", null, head(app.view.title()), trouble(app.impossible, app.me)) : app.view
      ? app.view.render() : null),
    h("footer", { key: "footer" }, "Times are UTC. ", link(["me"], "What you may do"), " · afplane keeps nothing on disk; tasks do no work"),
    notices(app));
}

/** Where the token is given. Nothing of it is kept but in memory, and a form is never sent. */
export function signInPage(app) {
  const { signing } = app;
  const given = (event) => {
    event.preventDefault();
    const input = event.target.querySelector("input"), token = input.value;
    if (!canSend(token)) {
      app.signing = { error: token === "" ? "Give a token." : "A token has no control characters.", isBusy: false };
      return app.update();
    }
    input.value = "";
    return app.signIn(token);
  };
  return h("main", { class: "sign-in", key: "sign-in" },
    h("h1", { id: "title", tabindex: "-1" }, h("span", { class: "logo", "aria-hidden": "true" }), "afplane"),
    h("form", { onsubmit: given, autocomplete: "off" },
      h("label", { for: "token" }, "Token"),
      h("input", { id: "token", type: "password", autocomplete: "off", spellcheck: "false", autocapitalize: "off", autofocus: true,
        "aria-describedby": "token-why token-error" }),
      h("p", { id: "token-error", class: "error", role: "alert" }, signing.error),
      h("button", { type: "submit", class: "first", disabled: signing.isBusy }, signing.isBusy ? "Signing in …" : "Sign in"),
      h("p", { id: "token-why", class: "hint" },
        "The token stays in the memory of this page: it is in no storage and no address. Reloading or closing the page forgets it.")));
}
