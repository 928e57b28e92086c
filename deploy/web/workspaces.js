// The view of all workspaces: a table that is sorted, searched, and refreshed by itself.

import { announce, ask, count, link, make, moment, reason, shown, since } from "./parts.js";

const REFRESH_MILLISECONDS = 5000;

// The columns: a title, the value to sort by, and what a cell shows.
const COLUMNS = [
  ["Name", (row) => row.workspace.name, (row) => make("a", { href: link(row.workspace.name) }, shown(row.workspace.name))],
  ["Serial", (row) => row.workspace.serial, (row) => count(row.workspace.serial), "number"],
  ["Instances", (row) => row.workspace.instances, (row) => count(row.workspace.instances), "number"],
  ["Bytes", (row) => row.workspace.bytes, (row) => count(row.workspace.bytes), "number"],
  ["Last change", (row) => Date.parse(row.changed_at ?? "") || 0, changed],
  ["Lock", (row) => row.workspace.holder === null ? null : row.workspace.who ?? "", lock],
];

function changed(row) {
  if (row.changed_by === null && row.changed_at === null) {
    return "–";
  }
  return make("span", { class: "short" }, shown(row.changed_by ?? "–"), make("br"), moment(row.changed_at));
}

function lock({ workspace }) {
  if (workspace.holder === null) {
    return make("span", { class: "quiet" }, "free");
  }
  const who = shown(workspace.who ?? "unknown");
  const what = workspace.operation === null ? "" : shown(workspace.operation);
  const ago = workspace.created === null ? "" : since(workspace.created);
  return make("span", {}, make("strong", {}, who), make("br"), what, " ", make("span", { class: "short" }, ago && `for ${ago}`));
}

function compare(one, other) {
  if (one === other) {
    return 0;
  }
  if (one === null || one === undefined) {
    return 1;
  }
  if (other === null || other === undefined) {
    return -1;
  }
  return one < other ? -1 : 1;
}

// Shows the table in a box until the view is left.
export async function showWorkspaces(box, signal) {
  const state = { rows: [], text: "", column: 0, isDown: false, sought: "" };
  const body = make("tbody");
  const heads = COLUMNS.map(([title, , , kind], at) => make("th", { scope: "col", class: kind },
    make("button", { type: "button", click: () => sort(at) }, title)));
  const search = make("input", { id: "search", type: "search", input: () => fill(search.value) });
  const found = make("p", { class: "quiet", role: "status", id: "found" });

  function sort(at) {
    state.isDown = state.column === at && !state.isDown;
    state.column = at;
    draw();
  }

  function fill(text) {
    state.sought = text.toLowerCase();
    draw();
  }

  function draw() {
    const [, value] = COLUMNS[state.column];
    const listed = state.rows
      .filter((row) => `${row.workspace.name}\n${row.workspace.who ?? ""}`.toLowerCase().includes(state.sought))
      .sort((one, other) => (state.isDown ? -1 : 1) * compare(value(one), value(other)) || compare(one.workspace.name, other.workspace.name));
    const focused = body.contains(document.activeElement) ? document.activeElement.getAttribute("href") : null;
    body.replaceChildren(...listed.map((row) => make("tr", {},
      COLUMNS.map(([, , cell, kind], at) => make(at ? "td" : "th", at ? { class: kind } : { scope: "row" }, cell(row))))));
    if (focused !== null) {
      [...body.querySelectorAll("a")].find((a) => a.getAttribute("href") === focused)?.focus();
    }
    heads.forEach((head, at) => {
      head.setAttribute("aria-sort", at !== state.column ? "none" : state.isDown ? "descending" : "ascending");
    });
    found.textContent = `${count(listed.length)} of ${count(state.rows.length)} workspaces`;
  }

  async function refresh() {
    const { answer, text } = await ask("", signal);
    state.rows = answer.workspaces;
    if (text !== state.text) {
      state.text = text;
      draw();
    }
    announce("");
  }

  await refresh();
  box.replaceChildren(
    make("h1", {}, "Workspaces"),
    make("div", { class: "tools" }, make("div", {}, make("label", { for: "search" }, "Search by name or lock holder"), search), found),
    make("div", { class: "scroll" }, make("table", { "aria-label": "Workspaces" }, make("thead", {}, make("tr", {}, heads)), body)),
  );
  const timer = setInterval(() => {
    if (!document.hidden) {
      refresh().catch((error) => signal.aborted || announce(reason(error)));
    }
  }, REFRESH_MILLISECONDS);
  signal.addEventListener("abort", () => clearInterval(timer));
}
