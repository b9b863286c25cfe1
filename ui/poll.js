// Follows the server with care: one request a second at most while the page is visible, none while it is hidden, ever fewer while the server is gone.
//
// A view names what it shows as sources. Each response names the number of entries and the policy version that it was decided on. While both are those of the
// last response, nothing has changed, and one request stands for all sources.

const PERIOD = 1000, QUICK = 40, MOST_WAIT = 30000;

/** What the poller knows of a source: when it was read, on which entries and version, and until when it is known to be so. */
class Record {
  constructor(source) {
    Object.assign(this, { source, readAt: undefined, validAt: undefined, seq: undefined, policy: undefined, error: null });
  }
}

export class Poller {
  /** `hooks`: sources() of what is shown, changed() once something was read, failed(why) where the whole page is concerned. */
  constructor(api, hooks) {
    Object.assign(this, { api, hooks, records: new Map(), seq: undefined, policy: undefined, timer: 0, isBusy: false, quick: 0, isOpening: false });
    Object.assign(this, { failures: 0, goneSince: null, nextAt: null, goneWhy: "", isOn: false, lastSentAt: 0 });
    document.addEventListener("visibilitychange", () => this.look());
  }

  start() {
    this.isOn = true;
    this.open();
  }

  stop() {
    this.isOn = false;
    clearTimeout(this.timer);
    Object.assign(this, { failures: 0, goneSince: null, nextAt: null, seq: undefined, policy: undefined });
    this.records.clear();
  }

  /** Another view is shown: nothing that it shows was read for it. */
  reset() {
    for (const [key, it] of this.records) if (!it.source.isQuiet) this.records.delete(key);
  }

  /** What is shown now and has not been read yet is read quickly, one request after another. */
  open() {
    this.isOpening = true;
    this.wake(0);
  }

  /** The user has changed something: what is shown is read again without a pause, up to so many requests. */
  hurry(requests = 3) {
    this.quick = requests;
    this.wake(0);
  }

  retry() {
    this.nextAt = null;
    this.wake(0);
  }

  look() {
    if (document.visibilityState === "hidden") clearTimeout(this.timer);
    else this.wake(Math.max(0, this.lastSentAt + PERIOD - Date.now()));
  }

  wake(delay) {
    clearTimeout(this.timer);
    if (this.isOn) this.timer = setTimeout(() => this.turn(), delay);
  }

  /** What has changed by what the user did, or by another view, is noticed here too. */
  observe({ seq, policy }) {
    if (policy !== undefined) this.policy = policy;
    if (seq !== undefined) this.seq = seq;
  }

  async turn() {
    if (this.isBusy || !this.isOn || document.visibilityState === "hidden") return;
    if (this.nextAt !== null && Date.now() < this.nextAt) return this.wake(this.nextAt - Date.now());
    this.sync();
    const record = this.next();
    if (!record) return this.wake(PERIOD);
    this.isBusy = true;
    this.lastSentAt = Date.now();
    await this.read(record);
    this.isBusy = false;
    if (this.isOn) this.wake(this.pause());
  }

  pause() {
    if (this.nextAt !== null) return Math.max(0, this.nextAt - Date.now());
    if (this.isOpening) this.sync();
    if (this.isOpening && [...this.records.values()].some((it) => it.readAt === undefined)) return QUICK;
    this.isOpening = false;
    this.quick = Math.max(0, this.quick - 1);
    return this.quick ? QUICK : Math.max(0, this.lastSentAt + PERIOD - Date.now());
  }

  /** The records are those of what is shown now. */
  sync() {
    const wanted = new Map(this.hooks.sources().map((it) => [it.key, it]));
    for (const key of this.records.keys()) if (!wanted.has(key)) this.records.delete(key);
    const ordered = new Map();
    for (const [key, source] of wanted) {
      const record = this.records.get(key) || new Record(source);
      if (record.source.target !== source.target && source.follows !== true) Object.assign(record, { readAt: undefined });
      record.source = source;
      ordered.set(key, record);
    }
    this.records = ordered;
  }

  isCurrent(record) {
    if (record.readAt === undefined || record.policy !== this.policy) return false;
    return record.source.isFixed || record.seq === undefined || record.seq === this.seq;
  }

  /** What to read next: what was never read, then what has waited longest for its kind, then the first, to see whether something has changed. */
  next() {
    const all = [...this.records.values()];
    const urgent = all.find((it) => it.source.isFirst && it.readAt !== undefined && !this.isCurrent(it));
    if (urgent) return urgent;
    const unread = all.find((it) => it.readAt === undefined && !it.source.isQuiet) || all.find((it) => it.readAt === undefined);
    if (unread) return unread;
    const now = Date.now();
    const waited = (it) => (now - it.readAt) / (1000 * (it.source.every || 3));
    const stale = all.filter((it) => !this.isCurrent(it)).sort((a, b) => waited(b) - waited(a));
    return stale[0] || all.find((it) => !it.source.isFixed && !it.source.isQuiet) || all[0];
  }

  async read(record) {
    const { source } = record;
    record.isForgotten = false;
    try {
      const came = await this.api.get(source.target);
      this.back();
      // (what was decided before something that was seen meanwhile, a change by the user say, is old already: it is asked for again)
      if (came.seq < this.seq || came.policy < this.policy) return undefined;
      this.note(record, came, null);
      // (some find out only now what they have to ask for)
      if (source.apply(came.json, came) === "again") record.readAt = undefined;
    } catch (why) {
      if (why.isGone) return this.gone(why);
      if (why.status === undefined) throw why;
      this.back();
      if (why.status === 401) return this.hooks.failed(why);
      this.note(record, why, why);
      if (source.refused) source.refused(why);
    } finally {
      if (record.isForgotten) this.renew(record);
      this.hooks.changed();
    }
    return undefined;
  }

  note(record, came, error) {
    const now = Date.now();
    Object.assign(record, { readAt: now, validAt: now, seq: came.seq, policy: came.policy, error });
    for (const it of this.records.values()) if (this.isCurrent(it)) it.validAt = now;
  }

  /** Reads a source again as soon as it is its turn. */
  forget(key) {
    const record = this.records.get(key);
    if (record) this.renew(record);
  }

  /** (a response that is on its way was asked for before) */
  renew(record) {
    Object.assign(record, { readAt: record.readAt === undefined ? undefined : 0, policy: undefined, isForgotten: true });
  }

  gone(why) {
    this.failures += 1;
    this.goneSince = this.goneSince || Date.now();
    this.goneWhy = why.detail;
    this.nextAt = Date.now() + Math.min(MOST_WAIT, 1000 * 2 ** Math.min(this.failures, 6));
  }

  back() {
    if (this.goneSince !== null) this.hooks.returned(Date.now() - this.goneSince);
    Object.assign(this, { failures: 0, goneSince: null, nextAt: null, goneWhy: "" });
  }

  error(key) {
    const record = this.records.get(key);
    return record ? record.error : null;
  }

  wasRead(key) {
    const record = this.records.get(key);
    return Boolean(record) && record.readAt !== undefined;
  }

  /** How old what is shown is at least and at most, in milliseconds; null before anything was read. */
  ages() {
    const now = Date.now();
    const all = [...this.records.values()].filter((it) => it.validAt !== undefined && !it.source.isFixed), shown = all.filter((it) => !it.source.isQuiet && !it.source.isSettled);
    const found = (shown.length ? shown : all).map((it) => now - it.validAt);
    return found.length ? [Math.min(...found), Math.max(...found)] : null;
  }
}
