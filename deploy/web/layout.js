// Graphs of instances: which nodes are shown, folded by module and by resource, and where.

export const COLUMN = 270;
export const ROW = 52;
export const WIDTH = 220;
export const HEIGHT = 42;

const MODULES = /^(?:module\.[^.[\]]+(?:\[(?:"(?:[^"\\]|\\.)*"|[^"\]]*)\])?\.)*/s;

// Returns the module of a configuration address; an empty text for the root module.
export function moduleOf(resource) {
  const words = resource.split(".");
  let length = 0;
  while (words[length] === "module" && length + 2 < words.length) {
    length += 2;
  }
  return words.slice(0, length).join(".");
}

// Returns the modules of an address with their keys, and the rest of it.
export function splitAddress(address) {
  const [path] = MODULES.exec(address);
  return [path.slice(0, -1), address.slice(path.length)];
}

// Groups rows of instances by module and by resource.
export function grouped(rows) {
  const modules = new Map();
  for (const row of rows) {
    const name = moduleOf(row.resource);
    if (!modules.has(name)) {
      modules.set(name, new Map());
    }
    const resources = modules.get(name);
    if (!resources.has(row.number)) {
      resources.set(row.number, []);
    }
    resources.get(row.number).push(row);
  }
  return modules;
}

// Returns the nodes to show: a module, a resource or an instance. `opened` has the keys of the
// modules and resources that are unfolded.
export function nodesOf(modules, opened) {
  const nodes = [];
  const places = new Map();
  const add = (node, rows) => {
    nodes.push({ ...node, rows });
    for (const row of rows) {
      if (!places.has(row.number)) {
        places.set(row.number, new Set());
      }
      places.get(row.number).add(nodes.length - 1);
    }
  };
  for (const [name, resources] of modules) {
    const key = `module ${name}`;
    const all = [...resources.values()].flat();
    if (!opened.has(key)) {
      add({ key, kind: "module", label: name || "(root module)" }, all);
      continue;
    }
    for (const rows of resources.values()) {
      const own = `resource ${rows[0].resource}`;
      if (rows.length > 1 && !opened.has(own)) {
        add({ key: own, parent: key, kind: "resource", label: rows[0].resource }, rows);
      } else {
        rows.forEach((row) => add({
          key: `instance ${row.address}`, parent: rows.length > 1 ? own : key, kind: "instance", label: row.address,
        }, [row]));
      }
    }
  }
  return { nodes, places };
}

// Returns the pairs of nodes whose first has an instance that depends on one of the second, at most
// `most` of them.
export function edgesOf({ nodes, places }, most) {
  const edges = [];
  nodes.forEach((node, from) => {
    const targets = new Set();
    for (const row of node.rows) {
      for (const number of row.dependencies) {
        for (const to of places.get(number) ?? []) {
          if (to !== from) {
            targets.add(to);
          }
        }
      }
    }
    for (const to of targets) {
      if (edges.length < most) {
        edges.push([from, to]);
      }
    }
  });
  return edges;
}

// Gives each node a layer: one more than the highest of the nodes that it depends on. An edge that
// closes a cycle is left out; folded modules may have one.
function layersOf(size, edges) {
  const needs = Array.from({ length: size }, () => []);
  edges.forEach(([from, to]) => needs[from].push(to));
  const layers = new Array(size).fill(-1);
  const isOpen = new Array(size).fill(false);
  for (let root = 0; root < size; root += 1) {
    const stack = [[root, 0]];
    while (stack.length > 0) {
      const top = stack[stack.length - 1];
      const [node, next] = top;
      if (layers[node] >= 0) {
        stack.pop();
      } else if (next < needs[node].length) {
        isOpen[node] = true;
        top[1] += 1;
        if (!isOpen[needs[node][next]] && layers[needs[node][next]] < 0) {
          stack.push([needs[node][next], 0]);
        }
      } else {
        isOpen[node] = false;
        layers[node] = 1 + needs[node].reduce((most, to) => Math.max(most, layers[to]), -1);
        stack.pop();
      }
    }
  }
  return layers;
}

// Places nodes: what changes first is on the left, what it reaches further right. Nodes of a layer
// are ordered by the middle of their neighbours, so that fewer edges cross.
export function placed(shownNodes, most = 6000) {
  const edges = edgesOf(shownNodes, most);
  const { nodes } = shownNodes;
  const layers = layersOf(nodes.length, edges);
  const columns = [];
  nodes.forEach((node, at) => {
    (columns[layers[at]] ??= []).push(at);
  });
  const near = nodes.map(() => []);
  edges.forEach(([from, to]) => {
    near[from].push(to);
    near[to].push(from);
  });
  const rank = new Array(nodes.length).fill(0);
  columns.forEach((column) => column.forEach((at, row) => { rank[at] = row; }));
  for (let sweep = 0; sweep < 4; sweep += 1) {
    for (const column of sweep % 2 ? [...columns].reverse() : columns) {
      const middle = new Map(column.map((at) => [at, near[at].length
        ? near[at].reduce((sum, other) => sum + rank[other], 0) / near[at].length : rank[at]]));
      column.sort((one, other) => middle.get(one) - middle.get(other));
      column.forEach((at, row) => { rank[at] = row; });
    }
  }
  const tallest = Math.max(1, ...columns.map((column) => column.length));
  const top = (layer) => ((tallest - columns[layer].length) / 2) * ROW;
  const spots = nodes.map((node, at) => ({ x: layers[at] * COLUMN, y: rank[at] * ROW + top(layers[at]) }));
  const routed = edges.map(([from, to]) => [from, to, passed(from, to)]);
  return { nodes, edges: routed, spots, width: columns.length * COLUMN - COLUMN + WIDTH, height: tallest * ROW - ROW + HEIGHT };

  // Returns where an edge passes the columns between its nodes: in the gap that is nearest to a
  // straight line.
  function passed(from, to) {
    const step = Math.sign(layers[to] - layers[from]);
    const points = [];
    for (let layer = layers[from] + step; step !== 0 && layer !== layers[to]; layer += step) {
      const part = (layer - layers[from]) / (layers[to] - layers[from]);
      const y = spots[from].y + (spots[to].y - spots[from].y) * part + HEIGHT / 2;
      const gap = Math.min(columns[layer].length, Math.max(0, Math.round((y - top(layer)) / ROW)));
      points.push({ x: layer * COLUMN, y: top(layer) + gap * ROW - (ROW - HEIGHT) / 2 });
    }
    return points;
  }
}
