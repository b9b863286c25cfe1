// Timestamps, durations and words.

const two = (number) => String(number).padStart(2, "0");

/** The milliseconds since 1970 of a timestamp, or null. */
export const timeOf = (text) => (text ? Date.parse(text) : null);

/** A timestamp as the API gives it, in UTC, without what every one of them has. */
export function stamp(text) {
  const found = /^(\d{4,}-\d\d-\d\d)T(\d\d:\d\d:\d\d)(\.\d+)?/.exec(text || "");
  return found ? `${found[1]} ${found[2]}` : text || "";
}

/** The time of day of a timestamp, with its date if that is not today. */
export function short(text, now = Date.now()) {
  const whole = stamp(text);
  const today = new Date(now).toISOString().slice(0, 10);
  return whole.startsWith(today) ? whole.slice(11) : whole;
}

export function clock(time) {
  const it = new Date(time);
  return `${two(it.getHours())}:${two(it.getMinutes())}:${two(it.getSeconds())}`;
}

/** A duration in milliseconds, in at most two units. */
export function lasting(ms) {
  if (ms === null || ms === undefined || Number.isNaN(ms)) return "";
  if (ms < 1000) return `${Math.max(0, Math.round(ms))} ms`;
  const seconds = ms / 1000;
  if (seconds < 60) return `${seconds < 10 && ms % 1000 >= 50 ? seconds.toFixed(1) : Math.floor(seconds)} s`;
  const whole = Math.floor(seconds);
  if (whole < 3600) return `${Math.floor(whole / 60)} min ${whole % 60 ? `${whole % 60} s` : ""}`.trim();
  if (whole < 86400) return `${Math.floor(whole / 3600)} h ${Math.floor((whole % 3600) / 60) ? `${Math.floor((whole % 3600) / 60)} min` : ""}`.trim();
  return `${Math.floor(whole / 86400)} d ${Math.floor((whole % 86400) / 3600) ? `${Math.floor((whole % 86400) / 3600)} h` : ""}`.trim();
}

/** How long a row with a start and an end took, or takes until now. */
export function took(row, now = Date.now()) {
  const start = timeOf(row && row.start_date);
  if (start === null) return null;
  const end = timeOf(row.end_date);
  return Math.max(0, (end === null ? now : end) - start);
}

/** How long ago a time was, rounded to seconds at most. */
export const ago = (ms) => (ms < 1500 ? "now" : `${lasting(Math.round(ms / 1000) * 1000)} ago`);

export const count = (number, one, many = `${one}s`) => `${number.toLocaleString("en")} ${number === 1 ? one : many}`;

/** A list in words: a, b and c. */
export const listed = (words) => (words.length < 2 ? words.join("") : `${words.slice(0, -1).join(", ")} and ${words[words.length - 1]}`);

const PRESETS = { "@hourly": "hourly", "@daily": "daily", "@weekly": "weekly", "@monthly": "monthly" };

export function schedule(interval) {
  if (interval === null || interval === undefined) return "by trigger only";
  return typeof interval === "number" ? `every ${lasting(interval * 1000)}` : PRESETS[interval] || String(interval);
}

const SPAN = { "@hourly": 3600, "@daily": 86400, "@weekly": 604800 };

/** When the next scheduled run is due: at the end of its interval. Null if there is none. */
export function due(dag) {
  const start = timeOf(dag.next_dagrun);
  if (start === null) return null;
  if (dag.schedule_interval === "@monthly") {
    const it = new Date(start);
    return Date.UTC(it.getUTCFullYear(), it.getUTCMonth() + 1, 1);
  }
  const seconds = typeof dag.schedule_interval === "number" ? dag.schedule_interval : SPAN[dag.schedule_interval];
  return seconds === undefined ? null : start + seconds * 1000;
}
