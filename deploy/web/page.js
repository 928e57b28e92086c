// The page: shows the view that the address names.

import { announce, make, reason } from "./parts.js";
import { showImpact } from "./impact.js";
import { showWorkspace } from "./workspace.js";
import { showWorkspaces } from "./workspaces.js";

const main = document.getElementById("view");
let leave = new AbortController();
let place = null;

// Returns the parts of the address after the hash: a workspace, a view of it, and parameters.
function parts() {
  const [path, query = ""] = location.hash.replace(/^#\/?/, "").split("?", 2);
  const [name = "", view = ""] = path.split("/").map((part) => {
    try {
      return decodeURIComponent(part);
    } catch {
      return part;
    }
  });
  return { name, view, parameters: new URLSearchParams(query) };
}

// Shows the view of the address. The view before it ends.
async function show() {
  if (location.hash === "#view") {
    main.focus();
    return;
  }
  const asked = parts();
  const next = `${asked.name}/${asked.view}`;
  const isSame = place === next;
  place = next;
  leave.abort();
  leave = new AbortController();
  const { signal } = leave;
  const box = make("div");
  try {
    if (asked.name === "") {
      document.title = "Workspaces · tfstated";
      await showWorkspaces(box, signal);
    } else if (asked.view === "impact") {
      document.title = `Impact in ${asked.name} · tfstated`;
      await showImpact(box, asked.name, asked.parameters, signal);
    } else {
      document.title = `${asked.name} · tfstated`;
      await showWorkspace(box, asked.name, signal);
    }
  } catch (error) {
    if (signal.aborted) {
      return;
    }
    announce("");
    box.replaceChildren(
      make("h1", {}, "Nothing to show"),
      make("p", { class: "warn", role: "alert" }, reason(error)),
      make("p", {}, make("a", { href: "#/" }, "All workspaces")),
    );
  }
  if (!signal.aborted) {
    const focused = isSame ? document.activeElement?.id : "";
    main.replaceChildren(box);
    const next = (focused && document.getElementById(focused)) || main;
    next.focus({ preventScroll: next === main });
    if (!isSame) {
      scrollTo(0, 0);
    }
  }
}

window.addEventListener("hashchange", show);
show();
