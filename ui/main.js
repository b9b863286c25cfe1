// The page: who is signed in, which view is shown, and what stands around it.

import { show } from "./dom.js";
import { Api, ApiError } from "./api.js";
import { Poller } from "./poll.js";
import { Permits, denial } from "./permits.js";
import { PolicyWatch } from "./versions.js";
import { Dialogs } from "./dialog.js";
import { frame, signInPage } from "./frame.js";
import { viewFor } from "./views.js";

/** The view and the parameters that the address names. */
export function routeOf(hash) {
  const [path, query = ""] = hash.replace(/^#\/?/, "").split(/\?(.*)/s);
  const decoded = (text) => {
    try {
      return decodeURIComponent(text);
    } catch {
      return text;
    }
  };
  return { segments: path.split("/").map(decoded).filter((it, at) => it !== "" || at > 0), query: Object.fromEntries(new URLSearchParams(query)) };
}

/** What is looked at stays where it is when rows come above it. */
function place() {
  const found = window.scrollY > 0 && document.elementFromPoint(window.innerWidth / 2, Math.min(200, window.innerHeight / 2));
  const row = found && (found.closest("tr") || found), top = row && row.getBoundingClientRect().top;
  return () => {
    const moved = row && row.isConnected ? row.getBoundingClientRect().top - top : 0;
    if (Math.abs(moved) >= 1) window.scrollBy(0, moved);
  };
}

export class App {
  constructor(element) {
    this.element = element;
    this.isDue = false;
    this.api = new Api((came) => this.observe(came));
    this.poller = new Poller(this.api, {
      sources: () => this.sources(),
      changed: () => this.update(),
      failed: (why) => this.signOut(why.status === 401 ? "The server does not know this token any more. Sign in again." : why.detail),
      returned: (ms) => this.notify(`The server answers again, after ${Math.round(ms / 1000)} s.`),
    });
    this.dialogs = new Dialogs(this);
    this.reset();
    window.addEventListener("hashchange", () => this.go());
    setInterval(() => document.visibilityState === "visible" && this.update(), 1000);
    this.update();
  }

  reset() {
    Object.assign(this, { me: null, impossible: null, permits: new Permits([]), view: null, viewKey: null, notices: [], seenSeq: undefined,
      seenPolicy: undefined, seenAt: 0 });
    Object.assign(this, { signing: { error: "", isBusy: false }, watch: new PolicyWatch() });
  }

  // ---- Who ----

  async signIn(token) {
    this.signing = { error: "", isBusy: true };
    this.update();
    this.api.token = token;
    try {
      this.learn((await this.api.get("/own/me")).json);
      this.signing = { error: "", isBusy: false };
      this.poller.start();
      this.go();
    } catch (why) {
      this.api.token = "";
      const words = why.status === 401 ? "No user has this token." : why.isGone ? `The server does not answer (${why.detail}).` : why.detail;
      this.signing = { error: words, isBusy: false };
    }
    this.update();
  }

  signOut(why = "") {
    this.api.token = "";
    this.poller.stop();
    this.dialogs.close();
    this.reset();
    this.signing.error = why;
    this.update();
  }

  learn(me) {
    const before = this.me;
    this.me = me;
    this.permits = new Permits(me.permissions);
    if (!before || before.policy_version === me.policy_version) return this.watch.me(me);
    const changes = this.watch.me(me);
    // (more may be there to see: it is read as after the sign-in)
    if (changes.length) this.poller.open();
    if (changes.length) this.notify(`What you may do has changed (policy version ${me.policy_version}): ${changes.join("; ")}`);
    return undefined;
  }

  // ---- What ----

  /** Smaller numbers than before, in a response to a request that was sent after them, show that the server has begun anew. */
  observe(came) {
    const { policy, seq, sentAt } = came;
    const isLess = (seq !== undefined && seq < this.seenSeq) || (policy !== undefined && policy < this.seenPolicy);
    if (isLess && sentAt < this.seenAt) return;
    if (isLess) {
      this.notify("The server was started again. Runs, entries and changes from before are gone.");
      this.watch = new PolicyWatch();
      this.seenSeq = this.seenPolicy = undefined;
      this.viewKey = null;
    }
    this.seenAt = Date.now();
    if (seq !== undefined) this.seenSeq = seq;
    if (policy !== undefined) this.seenPolicy = policy;
    this.poller.observe({ seq: this.seenSeq, policy: this.seenPolicy });
    // (a view of what is gone begins anew, and the focus stays where it is)
    if (isLess && this.me) this.go();
    if (isLess) this.focusTitle = false;
  }

  sources() {
    if (!this.me) return [];
    const me = { key: "me", target: "/own/me", isQuiet: true, isFirst: true, apply: (json) => this.learn(json) };
    const watched = this.watch.sources(this.permits);
    return [...this.viewSources(), me, ...watched];
  }

  /** What the view wants to read; nothing if it is about a name that cannot be asked for. */
  viewSources() {
    this.impossible = null;
    try {
      return this.view ? this.view.sources() : [];
    } catch (why) {
      if (!(why instanceof ApiError)) throw why;
      this.impossible = why;
      return [];
    }
  }

  go() {
    if (!this.me) return this.update();
    const route = routeOf(location.hash);
    const { key, make } = viewFor(route);
    if (key !== this.viewKey) {
      this.viewKey = key;
      this.poller.reset();
      this.view = make(this, route);
      this.focusTitle = this.viewKey !== null && this.hasShown;
      window.scrollTo(0, 0);
    }
    this.hasShown = true;
    this.view.take(route);
    this.poller.open();
    return this.update();
  }

  /** Changes a parameter of the address in its place. */
  choose(changes) {
    const route = routeOf(location.hash);
    const query = { ...route.query, ...changes };
    for (const [name, value] of Object.entries(query)) if (value === undefined || value === null || value === "") delete query[name];
    const text = new URLSearchParams(query).toString();
    history.replaceState(null, "", `#/${route.segments.map(encodeURIComponent).join("/")}${text ? `?${text}` : ""}`);
    this.view.take(routeOf(location.hash));
    this.poller.open();
    this.update();
  }

  /** Does what the user asked for, and says how it went. Returns the response, or null. */
  async change(method, target, body, said) {
    try {
      const came = await this.api.ask(method, target, body);
      if (said) this.notify(typeof said === "function" ? said(came) : said);
      this.poller.hurry();
      return came;
    } catch (why) {
      if (!(why instanceof ApiError)) throw why;
      if (why.status === 401) this.signOut("The server does not know this token any more. Sign in again.");
      else this.notify(this.inWords(why), true);
      this.poller.hurry();
      return null;
    }
  }

  inWords(why) {
    if (why.status === -1) return why.detail;
    if (why.isGone) return `The server does not answer (${why.detail}). Whether the change was made is not known: look before you try again.`;
    const member = /^bad member: (\w+)$/.exec(why.detail || "");
    if (member) return `The server does not accept what was given as ${member[1].replace(/_/g, " ")} (${why.detail}).`;
    return denial(why.detail, this.me) || `The server refused this: ${why.detail}.`;
  }

  notify(words, isBad = false) {
    const notice = { words, isBad, key: (this.noticeKey = (this.noticeKey || 0) + 1) };
    this.notices = [...this.notices.slice(-3), notice];
    setTimeout(() => this.dismiss(notice), isBad ? 20000 : 8000);
    this.update();
  }

  dismiss(notice) {
    this.notices = this.notices.filter((it) => it !== notice);
    this.update();
  }

  // ---- Shown ----

  update() {
    if (this.isDue) return;
    this.isDue = true;
    (document.visibilityState === "visible" ? requestAnimationFrame : setTimeout)(() => {
      this.isDue = false;
      this.render();
    });
  }

  render() {
    const title = this.me && this.view ? this.view.title() : "Sign in";
    document.title = `${title} · afplane`;
    const stay = place();
    show(this.element, this.me ? frame(this) : signInPage(this));
    this.dialogs.place();
    stay();
    if (this.focusTitle) {
      const head = document.getElementById("title");
      if (head) head.focus({ preventScroll: true });
      this.focusTitle = false;
    }
  }
}

const app = new App(document.getElementById("page"));
if (location.hash === "") history.replaceState(null, "", "#/dags");
export default app;
