// The pools, with the slots in use over all slots.

import { h, s } from "./dom.js";
import { v1 } from "./api.js";
import { done } from "./dialog.js";
import { count } from "./format.js";
import { button, empty, field, head, loading, pager, table, to, trouble } from "./widgets.js";

const SIZE = 50, WIDE = 200, HIGH = 14, MOST_SLOTS = 1000000;

/** Slots as a bar: running, queued, open. What is occupied may be more than there are, after a pool was made smaller. */
function slots(pool) {
  const all = Math.max(pool.slots, pool.occupied_slots, 1), part = (number) => Math.round((number / all) * WIDE * 10) / 10;
  const running = part(pool.running_slots), queued = part(pool.queued_slots), limit = part(pool.slots);
  const words = `${pool.occupied_slots} of ${pool.slots} in use: ${pool.running_slots} running, ${pool.queued_slots} queued, ${pool.open_slots} open`;
  return h("span", { class: "slots" },
    s("svg", { width: WIDE, height: HIGH, viewBox: `0 0 ${WIDE} ${HIGH}`, role: "img", "aria-label": words },
      s("title", null, words),
      s("rect", { class: "room", x: 0.5, y: 0.5, width: Math.max(0, limit - 1), height: HIGH - 1, rx: 2 }),
      s("rect", { class: "bar is-running", x: 0, y: 1, width: running, height: HIGH - 2 }),
      s("rect", { class: "bar is-queued", x: running, y: 1, width: queued, height: HIGH - 2 })),
    h("span", { class: "sub" }, `${pool.running_slots} running, ${pool.queued_slots} queued, `,
      h("strong", { class: pool.open_slots ? null : "late" }, `${pool.open_slots} open`)));
}

export class PoolsView {
  constructor(app) {
    Object.assign(this, { app, place: "pools", pools: null, total: undefined, query: {} });
  }

  take({ query }) {
    this.query = query;
  }

  title() {
    return "Pools";
  }

  get at() {
    return /^\d+$/.test(this.query.at || "") ? Number(this.query.at) : 0;
  }

  sources() {
    const apply = (json) => Object.assign(this, { pools: json.pools, total: json.total_entries }) && undefined;
    return [{ key: "pools", target: `${v1("pools")}?limit=${SIZE}&offset=${this.at}`, every: 2, apply }];
  }

  render() {
    const { app } = this, { permits } = app, why = app.poller.error("pools");
    const may = (action) => permits.has("Pools", action), hasActs = may("can_edit") || may("can_delete");
    const columns = [["Pool", "row"], ["In use", "number"], ["Slots", "number"], ["Slots in use over slots", ""], ...(hasActs ? [["", "act"]] : [])];
    return h("section", null,
      head("Pools", h("span", { class: "count" }, this.total ?? ""), may("can_create") ? button("Add a pool …", () => this.add(), { class: "first" }) : null),
      permits.has("Audit Logs", "can_read") ? h("p", { class: "hint" }, "Who changed pools is in the ",
        h("a", { href: to(["events"], { kind: "pools" }) }, "event log"), ".") : null,
      why ? trouble(why, app.me) : !this.pools ? loading() : this.pools.length ? table("Pools", columns, this.pools.map((pool) => ({ key: pool.name, cells: [
        h("span", { class: "id" }, pool.name), pool.occupied_slots, pool.slots, slots(pool),
        ...(hasActs ? [[may("can_edit") ? button("Slots …", () => this.edit(pool), { "aria-label": `Change the slots of ${pool.name}` }) : null,
          may("can_delete") && pool.name !== "default_pool" ? button("Delete …", () => this.remove(pool),
            { class: "danger", "aria-label": `Delete ${pool.name}` }) : null]] : [])] }))) : empty("No pool here."),
      why ? null : pager(this.at, SIZE, this.total, (at) => to(["pools"], { at: at || undefined })));
  }

  input(value) {
    return field("Slots", h("input", { name: "slots", type: "number", min: 0, max: MOST_SLOTS, step: 1, required: true, value: String(value) }),
      "0 lets no task of this pool be queued");
  }

  add() {
    const act = async ({ name, slots: number }) => Boolean(await done(this.app, "POST", v1("pools"), { name, slots: Number(number) },
      `The pool ${name} is added.`));
    const content = h("div", null, field("Name", h("input", { name: "name", required: true, maxlength: 250, autofocus: true })), this.input(1),
      h("p", { class: "hint" }, "Tasks name their pool in the configuration: no task takes slots of a pool that is added here."));
    this.app.dialogs.open("Add a pool", (shown) => this.app.dialogs.form(shown, "Add", act, content));
  }

  edit(pool) {
    const act = async ({ slots: number }) => Boolean(await done(this.app, "PATCH", v1("pools", pool.name), { slots: Number(number) },
      (it) => `${pool.name} has ${count(it.json.slots, "slot")}.`));
    const content = this.input(pool.slots);
    this.app.dialogs.open(`Slots of ${pool.name}`, (shown) => this.app.dialogs.form(shown, "Change", act, content));
  }

  remove(pool) {
    const act = async () => Boolean(await done(this.app, "DELETE", v1("pools", pool.name), undefined, `The pool ${pool.name} is deleted.`));
    this.app.dialogs.ask("Delete a pool", [`Delete the pool ${pool.name}?`, "A pool that a task names cannot be deleted."], "Delete the pool", act);
  }
}
