// Lists of the API from their newer end: the server gives the oldest rows first, a hundred at most.

const MOST = 100, SLACK = 20;

/** The last `size` rows of a list. How long the list is, is known from the response before. */
export class Tail {
  constructor(target, size) {
    Object.assign(this, { target, size, rows: [], total: undefined, isRead: false });
  }

  source(key, every, changed = () => {}) {
    const offset = this.total === undefined ? 0 : Math.max(0, this.total - this.size);
    const limit = this.total === undefined ? this.size : Math.min(MOST, this.size + SLACK);
    const apply = (json) => {
      const again = this.take(json, offset);
      changed();
      return again;
    };
    return { key, target: `${this.target}?limit=${limit}&offset=${offset}`, every, follows: true, apply };
  }

  take(json, offset) {
    const rows = json.dag_runs, end = offset + rows.length;
    this.total = json.total_entries;
    if (end < this.total || (offset > 0 && rows.length < Math.min(this.size, this.total))) return "again";
    Object.assign(this, { rows: rows.slice(-this.size), isRead: true });
    return undefined;
  }

  /** Takes rows of the same list that were read elsewhere, the newest last. Returns false if rows between may be missing. */
  merge(rows) {
    if (!this.isRead || !rows.length) return true;
    const at = new Map(this.rows.map((it, place) => [it.dag_run_id, place]));
    let last = -1;
    rows.forEach((it, place) => {
      if (at.has(it.dag_run_id)) {
        this.rows[at.get(it.dag_run_id)] = it;
        last = place;
      }
    });
    const added = rows.slice(last + 1);
    this.rows = [...this.rows, ...added].slice(-this.size);
    this.total += added.length;
    return last >= 0 || this.total === added.length;
  }
}

/** A list in pages of a hundred from its newest page back. `target` gives the address of a page, `rowsOf` its rows. */
export class Pages {
  constructor(name, target, rowsOf, { isFixed = false, every = 2, everyOld = 20 } = {}) {
    Object.assign(this, { name, target, rowsOf, isFixed, every, everyOld, pages: new Map(), total: undefined, depth: 1 });
  }

  get head() {
    return this.total ? Math.floor((this.total - 1) / MOST) : 0;
  }

  /** The oldest page that is wanted. */
  get low() {
    return Math.max(0, this.head - this.depth + 1);
  }

  sources() {
    const found = [];
    for (let page = this.head; page >= this.low; page--) {
      const isHead = page === this.head;
      const key = `${this.name}-${page}`, target = `${this.target}?limit=${MOST}&offset=${page * MOST}`;
      found.push({ key, target, every: isHead ? this.every : this.everyOld, isFixed: this.isFixed && !isHead && this.isFull(page),
        apply: (json) => this.take(page, json) });
    }
    return found;
  }

  isFull(page) {
    return (this.pages.get(page) || []).length === MOST;
  }

  take(page, json) {
    const before = this.total;
    this.total = json.total_entries;
    this.pages.set(page, this.rowsOf(json));
    for (const it of this.pages.keys()) if (it > this.head) this.pages.delete(it);
    // (the page that was the last one has got full meanwhile, or the list was longer than thought)
    return before !== undefined && page < this.head && !this.isFull(page) ? "again" : undefined;
  }

  /** All rows that were read, the newest first. */
  newestFirst() {
    const found = [];
    for (let page = this.head; page >= this.low; page--) found.push(...[...(this.pages.get(page) || [])].reverse());
    return found;
  }

  /** How many rows were looked at, and whether some are on their way or left. */
  get looked() {
    return this.newestFirst().length;
  }

  get isReading() {
    for (let page = this.head; page >= this.low; page--) if (!this.pages.has(page)) return true;
    return this.total === undefined;
  }

  get hasOlder() {
    return this.low > 0;
  }
}
