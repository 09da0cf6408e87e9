"use strict";

/** How many milliseconds lie between two looks at the figures. */
const REFRESH = 5000;

const byId = (id) => document.getElementById(id);

/** An element with a text, and with others in it. */
function element(name, text, ...inner) {
  const made = document.createElement(name);
  if (text !== undefined) made.textContent = text;
  made.append(...inner);
  return made;
}

/** The samples of Prometheus' text format, by the names of their figures. */
function samplesOf(text) {
  const all = new Map();
  for (const line of text.split("\n")) {
    const found = /^([a-zA-Z_:][\w:]*)(?:\{(.*)\})? (\S+)$/.exec(line);
    if (!found) continue;
    const labels = {};
    for (const [, name, value] of (found[2] || "").matchAll(/(\w+)="((?:[^"\\]|\\.)*)"/g)) {
      labels[name] = value.replace(/\\(.)/g, (_, escaped) => (escaped === "n" ? "\n" : escaped));
    }
    if (!all.has(found[1])) all.set(found[1], []);
    all.get(found[1]).push({ labels, value: Number(found[3]) });
  }
  return all;
}

/** The number of a figure of one sample. */
const numberOf = (samples, name) => samples.get(name)?.[0]?.value;

/** The number of a sample with such labels. */
function labelled(samples, name, labels) {
  const found = (samples.get(name) || []).find((one) =>
    Object.entries(labels).every(([label, value]) => one.labels[label] === value));
  return found?.value;
}

/** A time as an operator says it. */
function spell(seconds) {
  const [days, hours, minutes] = [Math.floor(seconds / 86400), Math.floor(seconds / 3600) % 24, Math.floor(seconds / 60) % 60];
  if (days > 0) return `${days} d ${hours} h`;
  if (hours > 0) return `${hours} h ${minutes} min`;
  return minutes > 0 ? `${minutes} min` : `${Math.floor(seconds)} s`;
}

const said = (number) => (number === undefined ? "not counted yet" : number.toLocaleString("en"));

function showSite(samples) {
  const site = samples.get("pcrf_site_info")?.[0]?.labels ?? {};
  const serves = numberOf(samples, "pcrf_serving") === 1;
  byId("site").textContent = site.site ?? "?";
  const state = byId("state");
  state.className = serves ? "" : "bad";
  state.textContent = `${serves ? "It serves" : "It waits for a peer site to tell it all"}, in its epoch ${numberOf(samples, "pcrf_epoch")}, `
    + `by tables of edition ${site.edition ?? "?"}, and runs for ${spell(numberOf(samples, "pcrf_uptime_seconds"))}.`;
  document.title = `PCRF site ${site.site ?? "?"}`;
}

function showFigures(samples) {
  const rows = [
    ["Connections", `${said(numberOf(samples, "pcrf_connections"))} of ${said(numberOf(samples, "pcrf_connection_seats"))}`],
    ["Live calls", said(labelled(samples, "pcrf_sessions", { application: "Rx", state: "live" }))],
    ["of them bound", said(numberOf(samples, "pcrf_calls_bound"))],
    ["Operations made", said(numberOf(samples, "pcrf_operations_made"))],
  ];
  byId("figures").replaceChildren(...rows.flatMap(([name, value]) => [element("dt", name), element("dd", value)]));
}

function row(...cells) {
  return element("tr", undefined, ...cells);
}

function state(isGood, good, bad) {
  const cell = element("td", isGood ? good : bad);
  if (!isGood) cell.className = "bad";
  return cell;
}

function none(columns, text) {
  const cell = element("td", text);
  cell.colSpan = columns;
  return row(cell);
}

function showPeers(samples) {
  const peers = (samples.get("pcrf_peer_link") || []).map(({ labels, value }) => {
    const lacks = labelled(samples, "pcrf_peer_operations_lacking", labels) ?? 0;
    return row(
      element("td", labels.peer),
      state(value === 1, "up", "down"),
      element("td", said(labelled(samples, "pcrf_peer_letters_total", labels))),
      state(lacks === 0, "0", `${said(lacks)} operations`),
    );
  });
  byId("peers").replaceChildren(...(peers.length > 0 ? peers : [none(4, "It has no peer sites.")]));
}

function showGateways(samples) {
  const hosts = (samples.get("pcrf_host_connections") || []).map(({ labels, value }) => {
    const link = element("a", labels.host);
    link.href = `#${encodeURIComponent(labels.host)}`;
    return row(
      element("td", undefined, link),
      state(value > 0, said(value), "away"),
      element("td", labelled(samples, "pcrf_host_waiting", labels) === 1 ? "a request waits for it" : "no"),
    );
  });
  byId("gateways").replaceChildren(...(hosts.length > 0 ? hosts : [none(3, "No host came yet.")]));
}

function drawn(name, attributes, text) {
  const made = document.createElementNS("http://www.w3.org/2000/svg", name);
  for (const [key, value] of Object.entries(attributes)) made.setAttribute(key, value);
  if (text !== undefined) made.textContent = text;
  return made;
}

/** Draws points of a second and a number each, over the ten minutes before the last of them. */
function plot(svg, kind, points) {
  const [width, height, left, bottom] = [svg.clientWidth || 600, 120, 8, 18];
  svg.setAttribute("viewBox", `0 0 ${width} ${height}`);
  const last = points.length > 0 ? points[points.length - 1][0] : 0;
  const most = Math.max(1, ...points.map(([, value]) => value));
  const x = (second) => left + ((second - last + 600) / 600) * (width - 2 * left);
  const y = (value) => height - bottom - (value / most) * (height - bottom - 20);
  const base = height - bottom;
  svg.replaceChildren(
    drawn("line", { class: "axis", x1: left, x2: width - left, y1: base, y2: base }),
    drawn("line", { class: "axis", x1: left, x2: width - left, y1: y(most), y2: y(most) }),
    drawn("text", { x: left, y: y(most) - 4 }, said(Math.round(most * 10) / 10)),
    drawn("text", { x: left, y: height - 4 }, "10 min ago"),
    drawn("text", { x: width - left, y: height - 4, "text-anchor": "end" }, "now"),
    drawn("polyline", { class: `line ${kind}`, points: points.map(([second, value]) => `${x(second).toFixed(1)},${y(value).toFixed(1)}`).join(" ") }),
  );
}

function showHistory(history, samples) {
  const sessions = history.map(([at, live]) => [at, live]);
  const messages = history.slice(1).map(([at, , , count], place) => {
    const [before, , , counted] = history[place];
    return [at, (count - counted) / Math.max(1, at - before)];
  });
  plot(byId("sessions-plot"), "sessions", sessions);
  plot(byId("messages-plot"), "messages", messages);
  byId("sessions-now").textContent = said(labelled(samples, "pcrf_sessions", { application: "Gx", state: "live" }));
  const now = messages.length > 0 ? messages[messages.length - 1][1] : 0;
  byId("messages-now").textContent = said(Math.round(now * 10) / 10);
}

async function refresh() {
  try {
    const [figures, history] = await Promise.all([fetch("metrics"), fetch("history")]);
    const samples = samplesOf(await figures.text());
    showSite(samples);
    showFigures(samples);
    showPeers(samples);
    showGateways(samples);
    showHistory((await history.json()).samples, samples);
  } catch (error) {
    byId("state").className = "bad";
    byId("state").textContent = "The site doesn't answer.";
  }
  setTimeout(refresh, REFRESH);
}

/** A value of what was found, as elements. */
function told(value) {
  if (value === null) return document.createTextNode("none");
  if (Array.isArray(value)) {
    if (value.length === 0) return document.createTextNode("none");
    return element("ul", undefined, ...value.map((one) => element("li", undefined, told(one))));
  }
  if (typeof value === "object") {
    const list = element("dl");
    for (const [key, inner] of Object.entries(value)) {
      list.append(element("dt", key.replaceAll("_", " ")), element("dd", undefined, told(inner)));
    }
    return list;
  }
  return document.createTextNode(String(value));
}

/** Sessions as links that look them up. */
function linked(ids) {
  return ids.map((id) => {
    const link = element("a", id);
    link.href = `#${encodeURIComponent(id)}`;
    return element("li", undefined, link);
  });
}

/** A list of sessions, and a link to its next page if there is one. */
function listed(title, path, page, ids, count) {
  const shown = [element("h3", `${title}: ${said(count)}`), element("ul", undefined, ...linked(ids))];
  if (page * 100 < count) {
    const next = element("button", "Next page");
    next.type = "button";
    next.addEventListener("click", () => look(decodeURIComponent(path.split("/").pop()), page + 1));
    shown.push(next);
  }
  return shown;
}

async function asked(path) {
  const answer = await fetch(path);
  return answer.ok ? answer.json() : null;
}

/** What is found under a name, as elements. */
async function finds(name, page) {
  const written = encodeURIComponent(name);
  const [session, address, subscriber, host] = await Promise.all([
    asked(`sessions/${written}`),
    asked(`addresses/${written}?page=${page}`),
    asked(`subscribers/${written}?page=${page}`),
    asked(`gateways/${written}`),
  ]);
  const shown = [];
  if (session?.gateway_session) shown.push(element("h3", `Session of a gateway: ${name}`), told(session.gateway_session));
  if (session?.call) shown.push(element("h3", `Session of an application function: ${name}`), told(session.call));
  if (address && address.count + address.call_count > 0) {
    shown.push(...listed(`Sessions of gateways at ${name}`, `addresses/${written}`, page, address.gateway_sessions, address.count));
    shown.push(...listed(`Calls at ${name}`, `addresses/${written}`, page, address.calls, address.call_count));
  }
  if (subscriber && subscriber.count > 0) {
    shown.push(...listed(`Sessions of subscriber ${name}`, `subscribers/${written}`, page, subscriber.gateway_sessions, subscriber.count));
  }
  if (host) shown.push(element("h3", `Host ${name}`), told(host));
  return shown.length > 0 ? shown : [element("p", `The site knows nothing of ${name}.`)];
}

/** How many names were looked up. */
let looks = 0;

/** Looks a name up, and shows what is found unless another was looked up meanwhile. */
async function look(name, page) {
  const number = ++looks;
  byId("name").value = name;
  let shown;
  try {
    shown = await finds(name, page);
  } catch (error) {
    shown = [element("p", "The site doesn't answer.")];
  }
  if (number === looks) byId("found").replaceChildren(...shown);
}

byId("look-up").addEventListener("submit", (event) => {
  event.preventDefault();
  const name = byId("name").value.trim();
  const hash = `#${encodeURIComponent(name)}`;
  if (location.hash !== hash) history.pushState(null, "", hash);
  look(name, 1);
});

window.addEventListener("hashchange", () => look(decodeURIComponent(location.hash.slice(1)), 1));

if (location.hash.length > 1) look(decodeURIComponent(location.hash.slice(1)), 1);
refresh();
