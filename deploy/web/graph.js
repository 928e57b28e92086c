// The picture of a graph: zoomed and moved by wheel, pointer and keys. Only what is in view is drawn.

import { HEIGHT, WIDTH, splitAddress } from "./layout.js";
import { make, shown } from "./parts.js";

const SVG = "http://www.w3.org/2000/svg";
const SMALL = 0.35;
const STEP = 1.25;

function draw(tag, attributes, ...children) {
  const element = document.createElementNS(SVG, tag);
  for (const [name, value] of Object.entries(attributes)) {
    element.setAttribute(name, value);
  }
  element.append(...children);
  return element;
}

function shortened(label) {
  const text = shown(label);
  return text.length <= 34 ? text : `${text.slice(0, 12)}…${text.slice(-20)}`;
}

// Returns both lines of a node: the modules, and what is in them.
function linesOf(node) {
  if (node.kind === "module") {
    return ["module", `${shortened(node.label)} (${node.rows.length})`];
  }
  const [path, rest] = splitAddress(node.label);
  return [shortened(path) || "root module", node.kind === "resource" ? `${shortened(rest)} (${node.rows.length})` : shortened(rest)];
}

// Narrows texts that are wider than their nodes.
function narrow(texts) {
  const wide = texts.filter((text) => text.getComputedTextLength() > WIDTH - 16);
  wide.forEach((text) => {
    text.setAttribute("textLength", WIDTH - 16);
    text.setAttribute("lengthAdjust", "spacingAndGlyphs");
  });
}

function described(node, picked) {
  const folded = node.kind === "instance" ? "instance" : `folded ${node.kind}, ${node.rows.length} instances`;
  return `${shown(node.label)}, ${folded}${picked ? ", picked" : ""}`;
}

// Makes a picture. `toggle` is called with a node that is to be folded or unfolded.
export function makeGraph(toggle) {
  const edges = draw("path", { class: "edge" });
  const heads = draw("path", { class: "head" });
  const dots = draw("path", { class: "dots" });
  const nodes = draw("g", {});
  const scene = draw("g", {}, edges, heads, dots, nodes);
  const svg = draw("svg", { role: "group", "aria-label": "Graph: arrows lead to what an instance depends on" }, scene);
  const box = make("div", { class: "graph" }, svg);
  const state = { graph: null, picked: new Set(), x: 0, y: 0, scale: 1, focus: null, isDue: false };

  function size() {
    const { width, height } = box.getBoundingClientRect();
    return { width: width || 800, height: height || 400 };
  }

  function spot(at) {
    return state.graph.spots[at];
  }

  function inView(at, margin = 400) {
    const { x, y } = spot(at);
    const { width, height } = size();
    const [left, top] = [x * state.scale + state.x, y * state.scale + state.y];
    return left + WIDTH * state.scale > -margin && left < width + margin && top + HEIGHT * state.scale > -margin && top < height + margin;
  }

  function edgeText([from, to, passed]) {
    const [one, other] = [spot(from), spot(to)];
    const isLeft = one.x > other.x;
    let [x, y] = [isLeft ? one.x : one.x + WIDTH, one.y + HEIGHT / 2];
    let text = `M${x},${y}`;
    for (const next of [...passed, { x: other.x, y: other.y + HEIGHT / 2 }]) {
      const near = isLeft ? next.x + WIDTH : next.x;
      const middle = (x + near) / 2;
      x = isLeft ? next.x : next.x + WIDTH;
      text += `C${middle},${y} ${middle},${next.y} ${near},${next.y}`;
      y = next.y;
      text += next.x === other.x ? "" : `H${x}`;
    }
    return text;
  }

  function headText([from, to]) {
    const [one, other] = [spot(from), spot(to)];
    const [x, back] = one.x > other.x ? [other.x + WIDTH, 8] : [other.x, -8];
    return `M${x},${other.y + HEIGHT / 2}l${back},-4v8Z`;
  }

  function nodeElement(at) {
    const node = state.graph.nodes[at];
    const isPicked = node.rows.some((row) => state.picked.has(row.address));
    const isFolded = node.kind !== "instance";
    const [path, label] = linesOf(node);
    const element = draw("g", {
      role: "button", class: `${isFolded ? "folded" : ""} ${isPicked ? "picked" : ""}`, "data-key": node.key,
      tabindex: node.key === state.focus ? 0 : -1, "aria-label": described(node, isPicked), transform: `translate(${spot(at).x} ${spot(at).y})`,
      "aria-expanded": isFolded ? "false" : "true",
    }, draw("rect", { width: WIDTH, height: HEIGHT, rx: 4 }), draw("text", { class: "of", x: 8, y: 16 }, path), draw("text", { x: 8, y: 33 }, label));
    element.append(draw("title", {}, shown(node.label)));
    return element;
  }

  function paint() {
    state.isDue = false;
    const { graph, scale } = state;
    if (graph === null) {
      return;
    }
    scene.setAttribute("transform", `translate(${state.x} ${state.y}) scale(${scale})`);
    const visible = graph.nodes.map((node, at) => inView(at));
    const pairs = graph.edges.filter(([from, to]) => visible[from] || visible[to]);
    edges.setAttribute("d", pairs.map(edgeText).join(""));
    heads.setAttribute("d", pairs.map(headText).join(""));
    const numbers = graph.nodes.map((node, at) => at).filter((at) => visible[at]);
    const isSmall = scale < SMALL && numbers.length > 300;
    const hadFocus = nodes.contains(document.activeElement);
    dots.setAttribute("d", isSmall ? numbers.map((at) => `M${spot(at).x},${spot(at).y}h${WIDTH}v${HEIGHT}h-${WIDTH}Z`).join("") : "");
    const drawn = isSmall ? numbers.filter((at) => graph.nodes[at].key === state.focus) : numbers;
    nodes.replaceChildren(...drawn.map(nodeElement));
    narrow([...nodes.querySelectorAll("text")]);
    if (hadFocus) {
      focusNode();
    }
  }

  function later() {
    if (!state.isDue) {
      state.isDue = true;
      requestAnimationFrame(paint);
    }
  }

  function focusNode() {
    [...nodes.children].find((element) => element.dataset.key === state.focus)?.focus({ preventScroll: true });
  }

  function zoom(factor, x = size().width / 2, y = size().height / 2) {
    const scale = Math.min(3, Math.max(0.02, state.scale * factor));
    state.x = x - (x - state.x) * (scale / state.scale);
    state.y = y - (y - state.y) * (scale / state.scale);
    state.scale = scale;
    later();
  }

  function move(x, y) {
    state.x += x;
    state.y += y;
    later();
  }

  function fit() {
    const { width, height } = size();
    const { graph } = state;
    state.scale = Math.min(1.2, Math.max(0.02, Math.min((width - 20) / graph.width, (height - 20) / graph.height)));
    state.x = (width - graph.width * state.scale) / 2;
    state.y = (height - graph.height * state.scale) / 2;
    later();
  }

  function at() {
    return state.graph.nodes.findIndex((node) => node.key === state.focus);
  }

  function step(by) {
    const order = state.graph.nodes.map((node, number) => number)
      .sort((one, other) => spot(one).x - spot(other).x || spot(one).y - spot(other).y);
    const next = order[Math.min(order.length - 1, Math.max(0, order.indexOf(at()) + by))];
    state.focus = state.graph.nodes[next].key;
    if (!inView(next, -WIDTH * state.scale / 2)) {
      const { width, height } = size();
      state.x = width / 2 - (spot(next).x + WIDTH / 2) * state.scale;
      state.y = height / 2 - spot(next).y * state.scale;
    }
    paint();
    focusNode();
  }

  const KEYS = {
    "+": () => zoom(STEP), "=": () => zoom(STEP), "-": () => zoom(1 / STEP), 0: fit,
    ArrowDown: (event) => (event.shiftKey ? move(0, -60) : step(1)),
    ArrowUp: (event) => (event.shiftKey ? move(0, 60) : step(-1)),
    ArrowLeft: () => move(60, 0), ArrowRight: () => move(-60, 0),
    Home: () => step(-Infinity), End: () => step(Infinity),
    Enter: () => toggle(state.graph.nodes[at()]), " ": () => toggle(state.graph.nodes[at()]),
  };

  svg.addEventListener("keydown", (event) => {
    const act = KEYS[event.key];
    if (act && !event.ctrlKey && !event.metaKey && !event.altKey) {
      event.preventDefault();
      act(event);
    }
  });
  box.addEventListener("wheel", (event) => {
    event.preventDefault();
    const edge = box.getBoundingClientRect();
    zoom(event.deltaY < 0 ? STEP : 1 / STEP, event.clientX - edge.left, event.clientY - edge.top);
  }, { passive: false });
  let drag = null;
  box.addEventListener("pointerdown", (event) => { drag = { x: event.clientX, y: event.clientY, far: 0 }; });
  box.addEventListener("pointermove", (event) => {
    if (drag !== null && event.buttons) {
      const [x, y] = [event.clientX - drag.x, event.clientY - drag.y];
      drag = { x: event.clientX, y: event.clientY, far: drag.far + Math.abs(x) + Math.abs(y) };
      move(x, y);
    }
  });
  svg.addEventListener("click", (event) => {
    const element = event.target.closest("g[role=button]");
    if (element !== null && (drag?.far ?? 0) < 6) {
      state.focus = element.dataset.key;
      toggle(state.graph.nodes[at()]);
    }
  });

  return {
    box,
    zoomIn: () => zoom(STEP),
    zoomOut: () => zoom(1 / STEP),
    fit,
    // Shows a graph; the focus stays on its node, or goes to the first one.
    show(graph, picked, focus) {
      state.graph = graph;
      state.picked = picked;
      box.style.height = `${Math.min(576, Math.max(240, graph.height + 40))}px`;
      const keys = new Set(graph.nodes.map((node) => node.key));
      state.focus = [focus, state.focus, graph.nodes[0]?.key].find((key) => keys.has(key)) ?? null;
      fit();
      paint();
      if (focus !== undefined) {
        focusNode();
      }
    },
  };
}
