// The states of runs and task instances, by the names and colours that users of Airflow know. A state is also a shape and a word, never a colour alone.

import { h } from "./dom.js";

export const STATES = ["none", "scheduled", "queued", "running", "success", "failed", "up_for_retry", "upstream_failed", "skipped"];
export const RUN_STATES = ["queued", "running", "success", "failed"];

const LABELS = {
  none: "no state",
  scheduled: "scheduled",
  queued: "queued",
  running: "running",
  success: "success",
  failed: "failed",
  up_for_retry: "up for retry",
  upstream_failed: "upstream failed",
  skipped: "skipped",
};
const ENDED = new Set(["success", "failed", "skipped", "upstream_failed"]);

/** The name of a state in classes: a task instance without a state is `none`, and what has not been read is `unread`. */
export const nameOf = (state) => (state === undefined ? "unread" : state === null ? "none" : state in LABELS ? state : "none");

export const labelOf = (state) => (state === undefined ? "not read yet" : state === null ? LABELS.none : LABELS[state] || String(state));

export const hasEnded = (state) => ENDED.has(state);

/** The square of a state. */
export function mark(state) {
  return h("span", { class: `mark is-${nameOf(state)}`, "aria-hidden": "true" });
}

/** The square of a state and its word. */
export function badge(state) {
  return h("span", { class: "badge" }, mark(state), h("span", { class: "word" }, labelOf(state)));
}

/** What the squares mean. */
export function legend(states = STATES) {
  return h("ul", { class: "legend", "aria-label": "States" }, states.map((it) => h("li", { key: it }, badge(it === "none" ? null : it))));
}
