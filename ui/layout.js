// Places of tasks in a layered graph: a layer is the longest way from a task without upstream, and tasks of a layer are ordered so that few edges cross.

export const WIDE = 176, HIGH = 40;
const ACROSS = 56, DOWN = 16, SWEEPS = 8, MOST_BENDS = 4000;

/** The layer of each task. The tasks of a DAG have no cycle. */
function layersOf(tasks) {
  const incoming = new Map(tasks.map((it) => [it.task_id, 0])), layer = new Map(), below = new Map(tasks.map((it) => [it.task_id, it.downstream_task_ids]));
  for (const it of tasks) for (const next of it.downstream_task_ids) incoming.set(next, (incoming.get(next) || 0) + 1);
  const ready = tasks.filter((it) => !incoming.get(it.task_id)).map((it) => it.task_id);
  for (const id of ready) layer.set(id, 0);
  while (ready.length) {
    const id = ready.shift();
    for (const next of below.get(id) || []) {
      layer.set(next, Math.max(layer.get(next) || 0, layer.get(id) + 1));
      incoming.set(next, incoming.get(next) - 1);
      if (incoming.get(next) === 0) ready.push(next);
    }
  }
  return layer;
}

/** Nodes by layer, with a bend in each layer that an edge passes. */
function withBends(tasks, layer) {
  const layers = [], edges = [];
  const add = (node) => {
    (layers[node.layer] = layers[node.layer] || []).push(node);
    return node;
  };
  const nodes = new Map(tasks.map((it) => [it.task_id, add({ id: it.task_id, layer: layer.get(it.task_id) || 0, above: [], below: [] })]));
  let bends = 0;
  for (const task of tasks) {
    for (const id of task.downstream_task_ids) {
      const from = nodes.get(task.task_id), to = nodes.get(id), way = [from];
      for (let at = from.layer + 1; at < to.layer && bends < MOST_BENDS; at++) {
        bends += 1;
        way.push(add({ id: null, layer: at, above: [], below: [] }));
      }
      way.push(to);
      for (let at = 1; at < way.length; at++) {
        way[at - 1].below.push(way[at]);
        way[at].above.push(way[at - 1]);
      }
      edges.push({ from: task.task_id, to: id, way });
    }
  }
  return { layers, edges, nodes };
}

const mean = (nodes, of) => nodes.reduce((sum, it) => sum + of(it), 0) / nodes.length;

function order(layers) {
  const number = (layer) => layer.forEach((it, at) => (it.order = at));
  layers.forEach(number);
  for (let sweep = 0; sweep < SWEEPS; sweep++) {
    const isDown = sweep % 2 === 0;
    for (const layer of isDown ? layers.slice(1) : layers.slice(0, -1).reverse()) {
      const near = (it) => (isDown ? it.above : it.below);
      const weight = new Map(layer.map((it) => [it, near(it).length ? mean(near(it), (other) => other.order) : it.order]));
      layer.sort((a, b) => weight.get(a) - weight.get(b) || a.order - b.order);
      number(layer);
    }
  }
}

const heightOf = (node) => (node.id === null ? 8 : HIGH);

const between = (one, next) => heightOf(one) / 2 + DOWN + heightOf(next) / 2;

/** Places of the nodes of a layer that are nearest to what they wish, in their order and as far apart as they have to be. */
function settle(layer, wish) {
  let sum = 0;
  const least = layer.map((it, at) => (at ? (sum += between(layer[at - 1], it)) : 0)), blocks = [];
  layer.forEach((it, at) => {
    let block = { total: wish[at] - least[at], count: 1 };
    // two that wish to be the wrong way round share one wish
    while (blocks.length && blocks[blocks.length - 1].total / blocks[blocks.length - 1].count >= block.total / block.count) {
      const before = blocks.pop();
      block = { total: before.total + block.total, count: before.count + block.count };
    }
    blocks.push(block);
  });
  let at = 0;
  for (const { total, count } of blocks) for (let n = 0; n < count; n++, at++) layer[at].y = total / count + least[at];
}

/** Moves nodes towards those beside them, without changing their order. */
function place(layers) {
  for (const layer of layers) settle(layer, layer.map(() => 0));
  for (let sweep = 0; sweep < SWEEPS; sweep++) {
    const isDown = sweep % 2 === 0;
    for (const layer of isDown ? layers.slice(1) : layers.slice(0, -1).reverse()) {
      settle(layer, layer.map((it) => {
        const near = isDown ? it.above : it.below;
        return near.length ? mean(near, (other) => other.y) : it.y;
      }));
    }
  }
}

/** Nodes with x and y of their left upper corner, edges as points, and the size of it all. */
export function laidOut(tasks) {
  const { layers, edges, nodes } = withBends(tasks, layersOf(tasks));
  order(layers);
  place(layers);
  const least = Math.min(...layers.flat().map((it) => it.y - heightOf(it) / 2));
  const x = (node) => node.layer * (WIDE + ACROSS) + 8, y = (node) => Math.round((node.y - least + 8) * 10) / 10;
  const found = [...nodes.values()].map((it) => ({ id: it.id, x: x(it), y: y(it) - HIGH / 2 }));
  const ways = edges.map(({ from, to, way }) => {
    const points = [];
    way.forEach((it, at) => {
      if (at > 0) points.push([x(it), y(it)]);
      if (at < way.length - 1) points.push([x(it) + WIDE, y(it)]);
    });
    return { from, to, points };
  });
  const high = Math.max(...layers.flat().map((it) => y(it) + heightOf(it) / 2)) + 8;
  return { nodes: found, edges: ways, wide: layers.length * (WIDE + ACROSS) - ACROSS + 16, high };
}
