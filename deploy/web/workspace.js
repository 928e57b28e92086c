// The view of a workspace: its state, its lock, its versions and who locked it.

import { announce, ask, count, link, make, moment, reason, shown } from "./parts.js";

const REFRESH_MILLISECONDS = 5000;
const VERSION_HEADS = [["Position", "number"], ["What"], ["Instances", "number"], ["Bytes", "number"], ["Who"], ["When"], ["Changes"], ["Restore"]];
const LOCK_HEADS = [["Position", "number"], ["Who"], ["Operation"], ["Taken"], ["End"]];
const SIGNS = { added: "+", removed: "−", changed: "~" };

// Gives each act the lock under which it was made, as far as the journals tell, and each version
// the version before it. The acts come newest first.
function told(acts) {
  let lock = null;
  let before = null;
  const rows = [];
  for (const act of [...acts].reverse()) {
    if (act.act === "lock") {
      lock = { ...act, until: null };
    }
    const isForced = act.act === "force-unlock";
    rows.push({ ...act, lock: isForced ? null : lock, before });
    if (act.act === "unlock" || isForced) {
      if (lock !== null) {
        lock.until = act;
      }
      lock = null;
    } else if (act.act === "push") {
      before = act.position;
    } else if (act.act === "delete") {
      before = null;
    }
  }
  return rows.reverse();
}

function who(lock) {
  return lock === null ? "–" : make("span", {}, shown(lock.who ?? "unknown"), lock.operation === null ? "" : ` (${shown(lock.operation)})`);
}

// Who made a version: the recorded user, or else the recorded address, or else the holder of its lock.
function author(row) {
  const client = row.user ?? row.address;
  return client === undefined ? who(row.lock) : shown(client);
}

// Returns a button and a row below its own, in which it shows the instances that changed from the
// version before to this one.
function changes(name, row, signal) {
  const list = make("ul", { class: "plain", id: `changes-${row.position}` });
  const more = make("tr", { hidden: true }, make("td", { class: "more", colspan: VERSION_HEADS.length }, list));
  const button = make("button", { type: "button", "aria-expanded": "false", "aria-controls": list.id }, "What changed");
  button.addEventListener("click", async () => {
    if (!more.hidden) {
      more.hidden = true;
      button.setAttribute("aria-expanded", "false");
      return;
    }
    try {
      const query = new URLSearchParams({ from: row.before, to: row.position });
      const { answer } = await ask(`/${encodeURIComponent(name)}/changes?${query}`, signal);
      list.replaceChildren(...answer.changes.map(({ change, instance }) => make("li", { class: change },
        make("span", { "aria-hidden": "true" }, SIGNS[change] ?? "?"), " ", `${change} `, make("code", {}, shown(instance)))));
      if (answer.changes.length === 0) {
        list.replaceChildren(make("li", {}, "No instance was added, removed or changed."));
      }
      announce(`${count(answer.changes.length)} changes at position ${row.position}`);
    } catch (error) {
      list.replaceChildren(make("li", { class: "warn" }, reason(error)));
    }
    more.hidden = false;
    button.setAttribute("aria-expanded", "true");
  });
  return { button, more };
}

// Quotes a word for a shell.
function quoted(word) {
  return /^[A-Za-z0-9_./-]+$/.test(word) ? word : `'${word.replaceAll("'", "'\\''")}'`;
}

// The link that shows the command that restores a version.
function restoring(name, row) {
  const isOption = name.startsWith("-");
  const words = ["restore", "--position", row.position, ...(isOption ? ["--"] : []), "/var/lib/tfstated/journal", quoted(name)];
  const text = `tfstatectl ${words.join(" ")} >restored.json\nterraform state push restored.json`;
  return make("details", {}, make("summary", { class: "short" }, `Restore ${row.serial}`), make("pre", { tabindex: "0" }, make("code", {}, text)));
}

function version(name, row, signal) {
  const isPush = row.act === "push";
  const { button, more } = isPush && row.before !== null ? changes(name, row, signal) : { button: isPush ? "first version" : "–", more: null };
  return [make("tr", {},
    make("th", { scope: "row", class: "number" }, count(row.position)),
    make("td", { class: "short" }, isPush ? `version ${row.serial}` : "deleted"),
    make("td", { class: "number" }, isPush ? count(row.instances) : "–"),
    make("td", { class: "number" }, isPush ? count(row.bytes) : "–"),
    make("td", {}, author(row)),
    make("td", {}, moment(row.time ?? row.lock?.created)),
    make("td", { class: "short" }, button),
    make("td", {}, isPush ? restoring(name, row) : "–")), more].filter((one) => one !== null);
}

function locked(row) {
  const { until } = row.lock;
  const end = until === null ? make("strong", {}, "held") : until.act === "force-unlock" ? "forced unlock" : "unlocked";
  return make("tr", {},
    make("th", { scope: "row", class: "number" }, count(row.position)),
    make("td", {}, shown(row.who ?? "unknown")),
    make("td", {}, row.operation === null ? "–" : shown(row.operation)),
    make("td", {}, moment(row.time ?? row.created)),
    make("td", {}, end, until === null ? "" : ` at position ${count(until.position)}`));
}

function table(label, heads, rows, empty) {
  if (rows.length === 0) {
    return make("p", {}, empty);
  }
  return make("div", { class: "scroll" }, make("table", { "aria-label": label },
    make("thead", {}, make("tr", {}, heads.map(([title, kind]) => make("th", { scope: "col", class: kind }, title)))),
    make("tbody", {}, rows)));
}

function summary(current) {
  if (current === null) {
    return make("p", {}, "The newest journal doesn't have this workspace.");
  }
  const { workspace } = current;
  const isLocked = workspace.holder !== null;
  return make("dl", {},
    make("dt", {}, "Serial"), make("dd", {}, count(workspace.serial)),
    make("dt", {}, "Instances"), make("dd", {}, count(workspace.instances)),
    make("dt", {}, "Size"), make("dd", {}, workspace.bytes === null ? "–" : `${count(workspace.bytes)} bytes`),
    make("dt", {}, "Lock"), make("dd", {}, isLocked
      ? make("span", {}, make("strong", {}, shown(workspace.who ?? "unknown")), workspace.operation === null ? "" : ` (${shown(workspace.operation)})`, ", taken ", moment(workspace.created))
      : "free"));
}

// Shows a workspace in a box until the view is left.
export async function showWorkspace(box, name, signal) {
  const path = `/${encodeURIComponent(name)}`;
  const head = make("div");
  const versions = make("div");
  const locks = make("div");
  let known = "";

  async function refresh() {
    const { answer } = await ask(path, signal);
    head.replaceChildren(summary(answer.current));
    const acts = JSON.stringify(answer.acts);
    if (acts !== known) {
      known = acts;
      const rows = told(answer.acts);
      versions.replaceChildren(table("Versions", VERSION_HEADS, rows.filter((row) => row.act === "push" || row.act === "delete")
        .flatMap((row) => version(name, row, signal)), "No version is kept."));
      locks.replaceChildren(table("Locks", LOCK_HEADS, rows.filter((row) => row.act === "lock").map(locked), "Nobody has locked it."));
    }
    announce("");
  }

  await refresh();
  box.replaceChildren(
    make("h1", {}, shown(name)), head,
    make("p", {}, make("a", { href: link(name, "impact") }, "What does a change reach?")),
    make("h2", {}, "Versions"), versions,
    make("h2", {}, "Locks"), locks,
  );
  const timer = setInterval(() => {
    if (!document.hidden) {
      refresh().catch((error) => signal.aborted || announce(reason(error)));
    }
  }, REFRESH_MILLISECONDS);
  signal.addEventListener("abort", () => clearInterval(timer));
}
