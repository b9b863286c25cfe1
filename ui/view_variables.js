// The variables: keys and values, which are plain text and no secrets.

import { h } from "./dom.js";
import { v1 } from "./api.js";
import { done } from "./dialog.js";
import { button, empty, field, head, loading, pager, table, to, trouble } from "./widgets.js";

const SIZE = 50, LONG = 300;

export class VariablesView {
  constructor(app) {
    Object.assign(this, { app, place: "variables", variables: null, total: undefined, query: {}, open: new Set() });
  }

  take({ query }) {
    this.query = query;
  }

  title() {
    return "Variables";
  }

  get at() {
    return /^\d+$/.test(this.query.at || "") ? Number(this.query.at) : 0;
  }

  sources() {
    const apply = (json) => Object.assign(this, { variables: json.variables, total: json.total_entries }) && undefined;
    return [{ key: "variables", target: `${v1("variables")}?limit=${SIZE}&offset=${this.at}`, every: 2, apply }];
  }

  render() {
    const { app } = this, why = app.poller.error("variables");
    const may = (action) => app.permits.has("Variables", action), hasActs = may("can_edit") || may("can_delete");
    const columns = [["Key", "row"], ["Value", "text"], ...(hasActs ? [["", "act"]] : [])];
    return h("section", null,
      head("Variables", h("span", { class: "count" }, this.total ?? ""),
        may("can_create") ? button("Add a variable …", () => this.add(), { class: "first" }) : null),
      h("p", { class: "hint" }, "Values are plain text: whoever may read variables sees them all."),
      why ? trouble(why, app.me) : !this.variables ? loading() : this.variables.length ? table("Variables", columns,
        this.variables.map((it) => ({ key: it.key, cells: [
        h("span", { class: "id" }, it.key), this.value(it),
        ...(hasActs ? [[may("can_edit") ? button("Edit …", () => this.edit(it), { "aria-label": `Edit ${it.key}` }) : null,
          may("can_delete") ? button("Delete …", () => this.remove(it),
            { class: "danger", "aria-label": `Delete ${it.key}` }) : null]] : [])] }))) : empty("There is no variable."),
      why ? null : pager(this.at, SIZE, this.total, (at) => to(["variables"], { at: at || undefined })));
  }

  value({ key, value }) {
    if (value === "") return h("span", { class: "faint" }, "empty");
    const isLong = value.length > LONG, isOpen = this.open.has(key);
    const flip = () => {
      if (isOpen) this.open.delete(key);
      else this.open.add(key);
      this.app.update();
    };
    return [h("code", { class: "value" }, isLong && !isOpen ? `${value.slice(0, LONG)}…` : value),
      isLong ? button(isOpen ? "Less" : `All ${value.length.toLocaleString("en")} characters`, flip,
      { class: "plain", "aria-expanded": String(isOpen) }) : null];
  }

  input(value) {
    return field("Value", h("textarea", { name: "value", rows: 6, spellcheck: "false", value }));
  }

  add() {
    const act = async ({ key }, form) => Boolean(await done(this.app, "POST", v1("variables"), { key, value: form.elements.value.value },
      `The variable ${key} is added.`));
    const content = h("div", null, field("Key", h("input", { name: "key", required: true, maxlength: 250, autofocus: true })), this.input(""));
    this.app.dialogs.open("Add a variable", (shown) => this.app.dialogs.form(shown, "Add", act, content));
  }

  edit(variable) {
    // (a field has no carriage returns: a value that was only looked at keeps its own)
    const asShown = variable.value.replace(/\r\n?/g, "\n");
    const act = async (_, form) => {
      const typed = form.elements.value.value, value = typed === asShown ? variable.value : typed;
      return Boolean(await done(this.app, "PATCH", v1("variables", variable.key), { value },
        `The variable ${variable.key} is ${value === variable.value ? "as it was" : "changed"}.`));
    };
    const content = this.input(asShown);
    this.app.dialogs.open(`Edit ${variable.key}`, (shown) => this.app.dialogs.form(shown, "Change", act, content));
  }

  remove(variable) {
    const act = async () => Boolean(await done(this.app, "DELETE", v1("variables", variable.key), undefined, `The variable ${variable.key} is deleted.`));
    this.app.dialogs.ask("Delete a variable", [`Delete the variable ${variable.key}?`, "This cannot be undone."], "Delete the variable", act);
  }
}
