// The view of an impact: what a change of the picked instances reaches, as a graph and as a list.

import { announce, ask, count, link, make, shown } from "./parts.js";
import { makeGraph } from "./graph.js";
import { grouped, nodesOf, placed } from "./layout.js";

const MOST_OFFERED = 12;
const MOST_AT_FIRST = 40;
const MOST_LISTED = 100;

// Returns the addresses that can be picked: each instance, and each resource with several.
function choices(instances) {
  const texts = new Set();
  for (const { address, resource } of instances) {
    texts.add(resource);
    texts.add(address);
  }
  return [...texts].sort();
}

// Makes the field that completes an address. `pick` is called with the chosen one.
function makeField(texts, pick) {
  const list = make("ul", { id: "offered", role: "listbox", "aria-label": "Addresses", hidden: true });
  const input = make("input", {
    id: "address", type: "text", role: "combobox", autocomplete: "off", spellcheck: "false",
    "aria-expanded": "false", "aria-controls": "offered", "aria-autocomplete": "list",
  });
  let offered = [];
  let active = -1;

  function close() {
    list.hidden = true;
    active = -1;
    input.setAttribute("aria-expanded", "false");
    input.removeAttribute("aria-activedescendant");
  }

  function choose(text) {
    input.value = "";
    close();
    pick(text);
  }

  function mark() {
    [...list.children].forEach((item, at) => item.setAttribute("aria-selected", String(at === active)));
    if (active >= 0) {
      input.setAttribute("aria-activedescendant", `offer-${active}`);
      list.children[active].scrollIntoView({ block: "nearest" });
    }
  }

  function offer() {
    const words = input.value.toLowerCase().split(/\s+/).filter(Boolean);
    offered = [];
    for (const text of texts) {
      if (words.every((word) => text.toLowerCase().includes(word))) {
        offered.push(text);
        if (offered.length === MOST_OFFERED) {
          break;
        }
      }
    }
    active = -1;
    list.replaceChildren(...offered.map((text, at) => make("li", {
      id: `offer-${at}`, role: "option", "aria-selected": "false", mousedown: (event) => event.preventDefault(), click: () => choose(text),
    }, shown(text))));
    list.hidden = offered.length === 0;
    input.setAttribute("aria-expanded", String(!list.hidden));
    input.removeAttribute("aria-activedescendant");
  }

  const KEYS = {
    ArrowDown: () => {
      if (list.hidden) {
        offer();
      }
      active = Math.min(active + 1, offered.length - 1);
      mark();
    },
    ArrowUp: () => {
      active = Math.max(active - 1, 0);
      mark();
    },
    Enter: () => {
      const text = offered[active] ?? (texts.includes(input.value) ? input.value : offered.length === 1 ? offered[0] : undefined);
      if (text !== undefined) {
        choose(text);
      }
    },
    Escape: close,
  };
  input.addEventListener("input", offer);
  input.addEventListener("blur", close);
  input.addEventListener("keydown", (event) => {
    const act = KEYS[event.key];
    if (act) {
      event.preventDefault();
      act();
    }
  });
  return make("div", { class: "combo" }, make("label", { for: "address" }, "Add an instance or a resource"), input, list);
}

// Makes the list of reached instances, folded by module. A long module is filled when it is opened.
function makeList(rows) {
  const modules = [...grouped(rows)].map(([name, resources]) => [name, [...resources.values()].flat()]);
  return modules.map(([name, own]) => {
    const list = make("ul", { class: "plain" });
    const fill = () => {
      if (list.children.length === 0) {
        list.replaceChildren(...own.map((row) => make("li", {}, make("code", {}, shown(row.address)))));
      }
    };
    const isOpen = rows.length <= MOST_LISTED;
    const folder = make("details", { open: isOpen, toggle: fill }, make("summary", {}, `${shown(name) || "root module"} (${count(own.length)})`), list);
    if (isOpen) {
      fill();
    }
    return folder;
  });
}

// Shows the impact in a box. The address of the page has the query.
export async function showImpact(box, name, parameters, signal) {
  const kind = parameters.get("kind") === "all" ? "all" : "any";
  const picked = parameters.getAll("address");
  const path = `/${encodeURIComponent(name)}`;
  const query = new URLSearchParams([["kind", kind], ...picked.map((text) => ["address", text])]);
  const [all, impact] = await Promise.all([
    ask(`${path}/instances`, signal),
    picked.length > 0 ? ask(`${path}/impact?${query}`, signal) : null,
  ]);
  const { instances, serial } = all.answer;
  const go = (nextKind, addresses) => {
    location.hash = link(name, "impact", [["kind", nextKind], ...addresses.map((text) => ["address", text])]);
  };
  const pick = (text) => go(kind, [...new Set([...picked, text])]);

  const kinds = ["any", "all"].map((value) => make("label", {}, make("input", {
    type: "radio", id: `kind-${value}`, name: "kind", value, checked: kind === value, change: () => go(value, picked),
  }), value === "any" ? " any of them " : " all of them "));
  const removers = picked.map((text) => make("li", {}, make("button", {
    type: "button", "aria-label": `Remove ${shown(text)}`, click: () => go(kind, picked.filter((other) => other !== text)),
  }, make("code", {}, shown(text)), " ×")));
  box.replaceChildren(
    make("h1", {}, "What does a change reach in ", make("a", { href: link(name) }, shown(name)), "?"),
    make("div", { class: "tools" }, makeField(choices(instances), pick), make("fieldset", {}, make("legend", {}, "Reached from"), kinds)),
    make("ul", { class: "plain", id: "picked", "aria-label": "Picked" }, removers),
  );
  if (impact === null) {
    announce("");
    box.append(make("p", {}, `Pick at least one of the ${count(instances.length)} instances of version ${serial}.`));
    return;
  }
  showAnswer(box, { instances, picked, reached: impact.answer.instances, serial: impact.answer.serial });
}

// Shows an answer as a graph and as a list.
function showAnswer(box, { instances, picked, reached, serial }) {
  const texts = new Set(picked);
  const known = new Set(reached.map((row) => row.address));
  const own = instances.filter((row) => texts.has(row.address) || texts.has(row.resource));
  const rows = [...own.filter((row) => !known.has(row.address)), ...reached];
  const marked = new Set(own.map((row) => row.address));
  const modules = grouped(rows);
  const opened = new Set();
  const resources = [...modules.values()].reduce((sum, each) => sum + each.size, 0);
  if (resources <= MOST_AT_FIRST) {
    [...modules.keys()].forEach((key) => opened.add(`module ${key}`));
  }
  const said = make("p", { class: "quiet", role: "status", id: "drawn" });

  function drawGraph(focus) {
    const graph = placed(nodesOf(modules, opened));
    view.show(graph, marked, focus);
    said.textContent = `${count(graph.nodes.length)} nodes and ${count(graph.edges.length)} arrows for ${count(rows.length)} instances`;
  }

  function toggle(node) {
    if (node.kind === "instance") {
      opened.delete(node.parent);
      drawGraph(node.parent);
    } else {
      opened.add(node.key);
      drawGraph(nodesOf(modules, opened).nodes.find((other) => other.parent === node.key)?.key);
    }
  }

  const view = makeGraph(toggle);
  const button = (title, act) => make("button", { type: "button", click: act }, title);
  const fold = () => {
    opened.clear();
    drawGraph();
  };
  box.append(
    make("p", { id: "answer" }, make("strong", {}, `${count(reached.length)} of ${count(instances.length)} instances`), ` of version ${serial} are reached.`),
    make("h2", {}, "Graph"),
    make("div", { class: "tools", role: "group", "aria-label": "Graph" },
      button("Zoom in", view.zoomIn), button("Zoom out", view.zoomOut), button("Fit", view.fit), button("Fold all", fold), said),
    make("p", { class: "quiet" }, "Select a folded node to unfold it, an instance to fold it again. Keys: up and down for nodes, left and right to move, + and − to zoom, 0 to fit."),
    view.box,
    make("h2", {}, "List"),
    ...(reached.length > 0 ? makeList(reached) : [make("p", {}, "Nothing depends on it.")]),
  );
  requestAnimationFrame(() => {
    drawGraph();
    performance.mark("graph");
  });
  announce("");
}
