"use strict";
// Shows the words of the record under the pointer, as the page carries them, and beside them the same in the field's units. What the map shows
// there, such as the speed, which is flow over vehicles, and B less A are worked out here.
(() => {
  const data = JSON.parse(document.getElementById("data").textContent);
  const panel = document.getElementById("words");
  const names = ["vehicles", "queue", "flow", "ramp flow"];
  const settings = ["rate", "limit"];
  const told = {
    vehicles: "vehicles on the link", queue: "queue at the ramp", flow: "flow of the link", "ramp flow": "flow of the ramp",
    rate: "metering rate", limit: "speed limit",
  };

  const unpack = (text) => {
    const bytes = Uint8Array.from(atob(text), (sign) => sign.charCodeAt(0));
    const view = new DataView(bytes.buffer);
    return Uint32Array.from({ length: bytes.length / 4 }, (_, at) => view.getUint32(4 * at, true));
  };
  const sides = Object.fromEntries(
    Object.entries(data.sides).map(([key, side]) => [key, { ...side, record: unpack(side.record), plan: unpack(side.plan) }]),
  );

  // The words of a node in a state: of the record, and of the plan for the step that the state begins.
  const wordsAt = (side, state, node) => {
    const count = side.nodes.length;
    const found = names.map((_, place) => side.record[(state * count + node) * names.length + place]);
    const posted = state < side.times.length - 1;
    return found.concat(posted ? settings.map((_, place) => side.plan[(state * count + node) * settings.length + place]) : []);
  };

  // The picture of a map that is shown on this screen: the wide one, or the narrow one.
  const pictureOf = (figure) => [...figure.querySelectorAll("img")].find((image) => image.offsetWidth > 0);
  const shapeOf = (figure, map) => map[pictureOf(figure).className];

  const cellOf = (figure, map, right, up) => {
    const shape = shapeOf(figure, map);
    const x = (right - shape.left) / shape.width;
    const y = 1 - (up - shape.top) / shape.height;
    const column = Math.floor(x * map.columns);
    const row = map.edges.findIndex((edge, at) => at + 1 < map.edges.length && edge <= y && y < map.edges[at + 1]);
    return x >= 0 && column < map.filled && row >= 0 ? { column, row } : null;
  };

  const make = (tag, text, attributes = {}) => {
    const element = document.createElement(tag);
    element.textContent = text;
    for (const [name, value] of Object.entries(attributes)) element.setAttribute(name, value);
    return element;
  };

  const decimals = (figure, count = 1) => figure.toLocaleString("en", { minimumFractionDigits: count, maximumFractionDigits: count });

  // A word in the field's unit: vehicles, vehicles per hour, or a speed; and whether a setting is the most that there is.
  const inUnits = (side, node, place, word) => {
    if (place < 2) return `${decimals(word / 64)} veh`;
    if (place < 4) return `${decimals(word * side.perHour)} veh/h`;
    if (place === 4) return `${decimals(word * side.perHour)} veh/h${word === side.capacities[node] ? ", not metered" : ""}`;
    if (side.sections[node] === null) return "";
    return `${decimals((word / 65536) * side.sections[node])} ${side.speeds}${word === side.full[node] ? ", full speed" : ""}`;
  };

  // What a map shows at a place, worked out of its words: vehicles per kilometre, a speed, or a share of a limit; nothing where there is none.
  const figures = {
    vehicles: {
      name: "vehicles per km",
      unit: () => "veh/km",
      of: (side, node, words) => (side.toLength ? words[0] / 64 / side.kilometres[node] : null),
    },
    speed: {
      name: "speed *",
      unit: (side) => (side.toLength ? side.speeds : "% of full speed"),
      of: (side, node, words) => (words[0] < 64 ? null : (words[2] / words[0]) * (side.toLength ? side.sections[node] : 6553600 / Math.max(side.full[node], 1))),
    },
    queue: {
      name: "share of its limit *",
      unit: (side, node) => `% of ${decimals(side.limits[node] / 64)} veh`,
      of: (side, node, words) => (side.limits[node] ? (100 * words[1]) / side.limits[node] : null),
    },
  };

  // The same for each record, and how much more it is in B.
  const ownRow = (map, node, words) => {
    const own = figures[map.quantity];
    const side = sides[map.sides[0]];
    if (!own || (map.quantity === "speed" && words[0].length === names.length)) return [];
    const found = map.sides.map((key, at) => own.of(sides[key], node, words[at]));
    if (found.includes(null)) return [];
    const row = make("tr", "", { class: "own" });
    const unit = own.unit(side, node);
    const cells = found.length === 2
      ? [`${own.name}, ${unit}`, ...found.map((figure) => decimals(figure, 2)), decimals(found[1] - found[0], 2)]
      : [own.name, "", `${decimals(found[0], 2)} ${unit}`];
    row.append(...cells.map((text) => make("td", text)));
    return [row];
  };

  const rowOf = (map, node, place, words) => {
    const row = make("tr", "");
    const name = names.concat(settings)[place];
    if (place === map.place) row.className = "shown";
    row.append(make("td", told[name] ?? name));
    map.sides.forEach((key, at) => {
      row.append(make("td", words[at][place].toLocaleString("en"), { "data-side": key, "data-word": name, "data-value": words[at][place] }));
    });
    if (map.sides.length === 2) {
      const more = words[1][place] - words[0][place];
      row.append(make("td", (more > 0 ? "+" : "") + more.toLocaleString("en"), { "data-side": "more", "data-word": name, "data-value": more }));
    } else {
      row.append(make("td", inUnits(sides[map.sides[0]], node, place, words[0][place])));
    }
    return row;
  };

  const fill = (map, cell) => {
    const side = sides[map.sides[0]];
    const state = map.first + cell.column;
    const node = map.nodes[cell.row];
    const words = map.sides.map((key) => wordsAt(sides[key], state, node));
    const told = `${side.times[state]}, ${map.ramps ? "ramp of" : "link to"} ${side.nodes[node]}`;
    const table = make("table", "");
    const heads = map.sides.length === 2 ? ["units", "A", "B", "B less A"] : ["", "units", ""];
    const head = make("tr", "");
    head.append(...heads.map((text) => make("th", text)));
    table.append(head, ...words[0].map((_, place) => rowOf(map, node, place, words)), ...ownRow(map, node, words));
    panel.replaceChildren(make("strong", told, { "data-state": state, "data-node": node }), table);
  };

  const outline = (figure, map, cell) => {
    const shape = shapeOf(figure, map);
    const box = figure.querySelector(".cell");
    const percent = (share) => `${100 * share}%`;
    box.style.left = percent(shape.left + (shape.width * cell.column) / map.columns);
    box.style.width = percent(shape.width / map.columns);
    box.style.top = percent(shape.top + shape.height * (1 - map.edges[cell.row + 1]));
    box.style.height = percent(shape.height * (map.edges[cell.row + 1] - map.edges[cell.row]));
    box.hidden = false;
    return box.getBoundingClientRect();
  };

  // Beside the place, on the side where there is room, so that it does not hide what it is about.
  const place = (x, y) => {
    const size = panel.getBoundingClientRect();
    const fit = (at, long, room) => Math.max(4, Math.min(at + 16 + long < room ? at + 16 : at - 16 - long, room - long - 4));
    panel.style.left = `${fit(x, size.width, window.innerWidth)}px`;
    panel.style.top = `${fit(y, size.height, window.innerHeight)}px`;
  };

  let active = null;
  const hide = () => {
    active = null;
    panel.hidden = true;
    document.querySelectorAll(".cell").forEach((box) => { box.hidden = true; });
  };

  const show = (figure, map, cell, x, y) => {
    hide();
    if (!cell) return;
    fill(map, cell);
    panel.hidden = false;
    active = figure;
    const box = outline(figure, map, cell);
    place(x ?? box.right, y ?? box.bottom);
  };

  document.querySelectorAll(".map").forEach((figure) => {
    const map = data.maps[Number(figure.dataset.map)];
    let at = null;
    const pointed = (event) => {
      const box = pictureOf(figure).getBoundingClientRect();
      at = cellOf(figure, map, (event.clientX - box.left) / box.width, (event.clientY - box.top) / box.height);
      show(figure, map, at, event.clientX, event.clientY);
    };
    figure.addEventListener("pointermove", pointed);
    figure.addEventListener("pointerdown", pointed);
    figure.addEventListener("pointerleave", (event) => { if (event.pointerType === "mouse") hide(); });
    figure.addEventListener("blur", () => { if (active === figure) hide(); });
    figure.addEventListener("keydown", (event) => {
      const steps = { ArrowLeft: [-1, 0], ArrowRight: [1, 0], ArrowUp: [0, 1], ArrowDown: [0, -1] }[event.key];
      if (event.key === "Escape") hide();
      if (!steps || !map.nodes.length) return;
      event.preventDefault();
      const within = (value, count) => Math.min(Math.max(value, 0), count - 1);
      at = at ? { column: within(at.column + steps[0], map.filled), row: within(at.row + steps[1], map.nodes.length) } : { column: 0, row: 0 };
      show(figure, map, at);
    });
  });
  document.addEventListener("scroll", hide, { passive: true });
})();
