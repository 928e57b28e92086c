// Requests, elements of the page, and texts as they are shown.

const HIDDEN = /[\p{Cc}\p{Cf}\p{Zl}\p{Zp}]/gu;
const TIME = /^\d{4}-\d\d-\d\dT\d\d:\d\d:\d\d(\.\d+)?(Z|[+-]\d\d:\d\d)$/;
const SECONDS = [["d", 86400], ["h", 3600], ["min", 60], ["s", 1]];

// Returns a text with its invisible characters escaped: a client chose it.
export function shown(text) {
  return String(text).replace(HIDDEN, (found) => `\\u{${found.codePointAt(0).toString(16)}}`);
}

// Makes an element with attributes, handlers and children. Texts are set as texts.
export function make(tag, attributes = {}, ...children) {
  const element = document.createElement(tag);
  for (const [name, value] of Object.entries(attributes)) {
    if (typeof value === "function") {
      element.addEventListener(name, value);
    } else if (value === true) {
      element.setAttribute(name, "");
    } else if (value !== false && value !== null && value !== undefined) {
      element.setAttribute(name, value);
    }
  }
  element.append(...children.flat().filter((child) => child !== null && child !== undefined));
  return element;
}

// A reply other than 200.
export class Refused extends Error {
  constructor(status, name) {
    super(name);
    this.status = status;
  }
}

// Asks the server, and returns its answer and the answer's text.
export async function ask(path, signal) {
  const reply = await fetch(`api/workspaces${path}`, { cache: "no-store", signal });
  const text = await reply.text();
  if (!reply.ok) {
    let name = `status ${reply.status}`;
    try {
      name = JSON.parse(text).error ?? name;
    } catch {
      // A proxy replies with other texts.
    }
    throw new Refused(reply.status, name);
  }
  return { answer: JSON.parse(text), text };
}

const REASONS = {
  NoUser: "The request has no valid user name. Sign in again.",
  NoAccessFile: "The access file can't be read, or has a line that this page doesn't understand.",
  NoName: "There is no such workspace, or you may not read it.",
  NoState: "The workspace has no state there.",
  NoPosition: "The journals don't have this position any more.",
  UnknownAddress: "The state has no instance of one of the addresses.",
  Unreadable: "The folder can't be read now. The page tries again.",
};

// Returns what went wrong, for people.
export function reason(error) {
  if (error instanceof Refused) {
    return REASONS[error.message] ?? `The server replied ${error.message}.`;
  }
  return "The server can't be reached. The page tries again.";
}

// Reports a change of state to the reader, also of a screen.
export function announce(text) {
  const status = document.getElementById("status");
  if (status.textContent !== text) {
    status.textContent = text;
  }
}

// Returns a number with separators; a dash for none.
export function count(number) {
  return number === null || number === undefined ? "–" : number.toLocaleString("en");
}

// Returns the time that has passed since a time, in two units.
export function since(text, now = Date.now()) {
  const seconds = Math.floor((now - Date.parse(text)) / 1000);
  if (Number.isNaN(seconds)) {
    return "";
  }
  const rest = Math.max(0, seconds);
  const at = Math.max(0, SECONDS.findIndex(([, size]) => rest >= size));
  const [[unit, size], [small, smaller] = []] = SECONDS.slice(rest < 1 ? 3 : at, at + 2);
  const first = `${Math.floor(rest / size)} ${unit}`;
  return small ? `${first} ${Math.floor((rest % size) / smaller)} ${small}` : first;
}

// Returns a time in UTC, to the second; a text that isn't a time (RFC 3339) as the client wrote it.
function utc(text) {
  if (!TIME.test(text) || Number.isNaN(Date.parse(text))) {
    return shown(text);
  }
  const [day, time] = new Date(text).toISOString().split("T");
  return `${day} ${time.slice(0, 8)} UTC`;
}

// Returns an element with a time, and how long ago it was.
export function moment(text) {
  if (text === null || text === undefined) {
    return "–";
  }
  const ago = since(text);
  const own = make("time", Number.isNaN(Date.parse(text)) ? {} : { datetime: text }, utc(text));
  return ago === "" ? own : make("span", {}, own, " ", make("span", { class: "quiet" }, `(${ago} ago)`));
}

// Returns the address of a view within the page.
export function link(name, view = "", parameters = []) {
  const query = new URLSearchParams(parameters).toString();
  return `#/${encodeURIComponent(name)}${view && `/${view}`}${query && `?${query}`}`;
}
