// Requests to the API. The token is kept here, in memory alone.

/** A response that is an error, or none at all: status 0. */
export class ApiError extends Error {
  constructor(status, detail) {
    super(detail);
    this.status = status;
    this.detail = detail;
  }

  /** Whether there is no server to answer, or it asks to come back later. */
  get isGone() {
    return [0, 429, 502, 503, 504].includes(this.status);
  }
}

const PATIENCE = 15000;

/** Whether a browser can ask for something of this name: it takes . and .. out of a path, however they are encoded. */
export const canAsk = (name) => name !== "." && name !== "..";

/** A path of the API from its segments, each encoded. */
export function path(...segments) {
  for (const it of segments) {
    if (!canAsk(it)) throw new ApiError(-1, `A browser cannot ask for something that is named "${it}". Use another client, such as curl --path-as-is.`);
  }
  return segments.map((it) => `/${encodeURIComponent(it)}`).join("");
}

export const v1 = (...segments) => `/api/v1${path(...segments)}`;

/** A token as a field of a request may carry it: its bytes in UTF-8, one character each. */
const bytesOf = (token) => String.fromCharCode(...new TextEncoder().encode(token));

/** Whether a token can be sent at all. */
export const canSend = (token) => token !== "" && !/[\0-\x08\x0a-\x1f\x7f]/.test(token);

export class Api {
  constructor(observe) {
    this.token = "";
    this.observe = observe;
  }

  /** The body of a response, with the number of entries and the policy version that it names. */
  async ask(method, target, body) {
    const token = this.token, sentAt = Date.now();
    const giveUp = new AbortController();
    const timer = setTimeout(() => giveUp.abort(), PATIENCE);
    try {
      const response = await this.fetched(method, target, body, token, giveUp.signal);
      const text = response.status === 204 ? "" : await response.text();
      const came = { sentAt, json: this.parsed(text), policy: this.number(response, "X-Policy-Version"), seq: this.number(response, "X-Plane-Seq") };
      if (this.token !== token) throw new ApiError(-1, "signed out");
      if (!response.ok) throw Object.assign(new ApiError(response.status, (came.json && came.json.detail) || `status ${response.status}`), came);
      if (response.status !== 204 && came.json === null) throw new ApiError(0, "the response is not JSON");
      this.observe(came);
      return came;
    } catch (why) {
      if (why instanceof ApiError) {
        if (why.policy !== undefined) this.observe(why);
        throw why;
      }
      throw new ApiError(0, why.name === "AbortError" ? "no response in time" : "no connection");
    } finally {
      clearTimeout(timer);
    }
  }

  fetched(method, target, body, token, signal) {
    const headers = { Accept: "application/json", Authorization: `Bearer ${bytesOf(token)}` };
    if (body !== undefined) headers["Content-Type"] = "application/json";
    const how = { cache: "no-store", credentials: "omit", redirect: "error", mode: "same-origin", referrerPolicy: "no-referrer" };
    return fetch(target, { ...how, method, headers, signal, body: body === undefined ? undefined : JSON.stringify(body) });
  }

  parsed(text) {
    try {
      return JSON.parse(text);
    } catch {
      return null;
    }
  }

  number(response, name) {
    const text = response.headers.get(name);
    return text === null || !/^\d+$/.test(text) ? undefined : Number(text);
  }

  get(target) {
    return this.ask("GET", target);
  }
}
