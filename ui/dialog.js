// One dialog at a time: a question, or a form. It is the browser's own, so that the keyboard stays in it, Escape closes it, and focus returns.

import { h, show } from "./dom.js";
import { button } from "./widgets.js";

export class Dialogs {
  constructor(app) {
    Object.assign(this, { app, shown: null, element: document.createElement("dialog") });
    // (the event comes later: after a close of our own another dialog may be open by then)
    this.element.addEventListener("close", () => {
      if (this.isClosing) this.isClosing = false;
      else this.closed();
    });
    this.element.setAttribute("aria-labelledby", "dialog-title");
    document.body.append(this.element);
  }

  /** `render(dialog)` makes what is in it; `title` its head. */
  open(title, render) {
    this.close();
    this.shown = { title, render, isBusy: false, error: "", count: (this.count = (this.count || 0) + 1) };
    this.app.update();
    return this.shown;
  }

  close() {
    this.hide();
    this.closed();
  }

  hide() {
    if (!this.element.open) return;
    this.isClosing = true;
    this.element.close();
  }

  closed() {
    if (this.shown === null) return;
    this.shown = null;
    this.app.update();
  }

  place() {
    const { shown, element } = this;
    const body = shown && h("div", { class: "dialog", key: shown.count },
      h("h2", { id: "dialog-title" }, shown.title),
      shown.render(shown));
    show(element, body || h("div", { key: "none" }));
    if (shown && !element.open) element.showModal();
    if (!shown) this.hide();
  }

  /** The buttons below a dialog: `act` returns whether it is over. The word says what it does. */
  buttons(shown, word, act, { isDangerous = false, isDisabled = false } = {}) {
    return h("div", { class: "buttons" },
      button("Cancel", () => this.close(), { autofocus: isDangerous }),
      h("button", { type: "submit", class: isDangerous ? "danger" : "first", disabled: shown.isBusy || isDisabled }, shown.isBusy ? "…" : word));
  }

  /** A form: `act` gets its values by name and returns whether it is over, or throws what to show. */
  form(shown, word, act, content, options = {}) {
    const submit = async (event) => {
      event.preventDefault();
      if (shown.isBusy) return;
      const values = Object.fromEntries(new FormData(event.target));
      Object.assign(shown, { isBusy: true, error: "" });
      this.app.update();
      try {
        if (await act(values, event.target)) return this.close();
      } catch (why) {
        if (why.status === undefined) throw why;
        if (why.status === 401) return this.app.signOut("The server does not know this token any more. Sign in again.");
        shown.error = this.app.inWords(why);
      } finally {
        shown.isBusy = false;
        this.app.update();
      }
      return undefined;
    };
    return h("form", { onsubmit: submit, autocomplete: "off" }, content,
      h("p", { class: "error", role: "alert" }, shown.error), this.buttons(shown, word, act, options));
  }

  /** A question before something that cannot be undone. */
  ask(title, words, word, act) {
    return this.open(title, (shown) => this.form(shown, word, act, h("div", null, words.map((it, at) => h("p", { key: at }, it))), { isDangerous: true }));
  }
}

/** Changes something for a dialog: an error is thrown, to be shown in the dialog. */
export async function done(app, method, target, body, said) {
  const came = await app.api.ask(method, target, body);
  if (said) app.notify(typeof said === "function" ? said(came) : said);
  app.poller.hurry();
  return came;
}
