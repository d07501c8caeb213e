// The walker of a page: it follows the arcs of the accepted sheet that the page holds, and shows where it stands. It works out nothing else.
"use strict";
(() => {
  const told = document.getElementById("data");
  if (!told) return; // a refused sheet is not walked
  const { places, transitions, nodes, waits, arcs, counts, scales, log } = JSON.parse(told.textContent);
  const find = (name) => document.getElementById(name);
  const all = (query) => Array.from(document.querySelectorAll(query));
  let fired = []; // the transitions fired so far
  let stood = [0]; // the nodes on the way, the first and the present one among them
  let playing = null;

  const here = () => stood[stood.length - 1];
  const offered = () => arcs[here()]; // [transition, node], by rising transition

  // ---- moves

  function fire(transition) {
    const arc = offered().find(([t]) => t === transition);
    if (!arc) return;
    fired = fired.concat(transition);
    stood = stood.concat(arc[1]);
    show();
  }
  function backTo(length) {
    fired = fired.slice(0, length);
    stood = stood.slice(0, length + 1);
    show();
  }
  function follow(length) {
    fired = log.firings.slice(0, length);
    stood = [0].concat(log.nodes.slice(0, length));
    show();
  }

  // ---- what is shown

  function show() {
    const focused = document.activeElement, within = focused && focused.closest("#offered");
    showNode();
    showOffered();
    showTanks();
    showTrail();
    showPictures();
    if (log) showLog();
    if (within || (focused && focused.disabled)) find("offered").firstChild.focus(); // what had the focus is gone
    find("live").textContent = spoken();
  }
  function element(name, text, parent) {
    const made = document.createElement(name);
    made.textContent = text;
    if (parent) parent.append(made);
    return made;
  }
  function showNode() {
    find("node").textContent = nodes[here()];
    find("waits").hidden = !waits.includes(here());
    find("back").disabled = find("reset").disabled = !fired.length;
  }
  function showOffered() {
    const list = find("offered");
    list.replaceChildren();
    offered().forEach(([t, n], i) => {
      const button = element("button", "", list);
      button.type = "button";
      button.dataset.fires = t;
      if (i < 9) element("kbd", i + 1, button).setAttribute("aria-hidden", "true");
      button.append(" " + transitions[t] + " ");
      element("small", "\u2192 " + nodes[n], button);
      button.addEventListener("click", () => fire(t));
    });
  }
  function showTanks() {
    const held = counts[here()];
    const before = stood.length > 1 ? counts[stood[stood.length - 2]] : held;
    all(".tank").forEach((tank, p) => {
      const share = (100 * held[p]) / scales[p];
      tank.querySelector(".full").style.width = share + "%";
      tank.querySelector(".count b").textContent = held[p].toLocaleString("en");
      const change = held[p] - before[p];
      tank.querySelector(".change").textContent = change ? (change > 0 ? "+" : "\u2212") + Math.abs(change).toLocaleString("en") : "";
      const meter = tank.querySelector(".track");
      meter.setAttribute("aria-valuenow", held[p]);
    });
  }
  function showTrail() {
    const list = find("trail"), most = 40, from = Math.max(0, fired.length - most);
    list.replaceChildren();
    if (!fired.length) element("li", "nothing yet", list);
    if (from) element("li", from.toLocaleString("en") + " before", list);
    fired.slice(from).forEach((t) => element("li", transitions[t], list));
    list.scrollTop = list.scrollHeight;
    find("fired").textContent = fired.length.toLocaleString("en");
  }
  function showPictures() {
    const targets = new Set(offered().map(([, n]) => n)), fires = new Set(offered().map(([t]) => t));
    const last = fired[fired.length - 1], from = stood[stood.length - 2];
    const mark = (one, name, on) => one.classList.toggle(name, on);
    for (const box of all(".sheet .box")) {
      const n = Number(box.dataset.box);
      mark(box, "here", n === here());
      mark(box, "next", targets.has(n));
    }
    for (const arrow of all(".sheet .arrow")) mark(arrow, "last", Number(arrow.dataset.from) === from && Number(arrow.dataset.to) === here());
    for (const box of all(".net .box")) {
      const number = Number(box.dataset.box), t = number - places.length;
      mark(box, "next", fires.has(t));
      mark(box, "last", t >= 0 && t === last);
      if (t < 0) tokens(box.querySelector(".tokens"), counts[here()][number]);
    }
    for (const figure of all(".sheet")) for (const box of figure.querySelectorAll(".here")) within(figure, box);
  }
  function tokens(text, count) {
    text.textContent = count || "";
    text.setAttribute("font-size", Math.min(12, 50 / String(count).length)); // a great number still fits the circle
  }
  function within(figure, box) {
    const frame = figure.getBoundingClientRect(), at = box.getBoundingClientRect();
    if (!at.width) return; // of two pictures one is hidden
    if (at.left < frame.left || at.right > frame.right) figure.scrollLeft += (at.left + at.right - frame.left - frame.right) / 2;
    if (at.top < frame.top || at.bottom > frame.bottom) figure.scrollTop += (at.top + at.bottom - frame.top - frame.bottom) / 2;
  }
  function spoken() {
    const held = places.map((name, p) => [name, counts[here()][p]]).filter(([, count]) => count).map(([name, count]) => name + " " + count);
    const step = fired.length ? transitions[fired[fired.length - 1]] + " fired. " : "";
    const next = offered().map(([t]) => transitions[t]).join(", ");
    return step + "Node " + nodes[here()] + (waits.includes(here()) ? ", which waits" : "") + ". Held: " + (held.join(", ") || "nothing") + ". Offered: " + next + ".";
  }

  // ---- the log

  function common() {
    let length = 0;
    while (length < fired.length && length < log.firings.length && fired[length] === log.firings[length]) length += 1;
    return length;
  }
  function showLog() {
    const at = common(), on = at === fired.length, slider = find("slider"), many = log.firings.length;
    slider.value = at;
    const text = on ? (at ? "firing " + at + " of " + many + ": " + transitions[log.firings[at - 1]] : "before the first of " + many) : "left the log after firing " + at;
    find("at").textContent = text;
    slider.setAttribute("aria-valuetext", text);
    find("next").disabled = on && at === many;
    for (const cursor of all(".cursor")) cursor.setAttribute("transform", "translate(" + at + ")");
    if (playing && on && at === many) stop();
    all(".firings button").forEach((button, i) => {
      const is = on && i + 1 === at;
      button.classList.toggle("is-at", is);
      if (is) button.setAttribute("aria-current", "step");
      else button.removeAttribute("aria-current");
      if (is) button.parentElement.parentElement.scrollTop = button.offsetTop - button.parentElement.parentElement.offsetTop - 60;
    });
  }
  function next() {
    follow(Math.min(common() + 1, log.firings.length));
  }
  function stop() {
    clearInterval(playing);
    playing = null;
    find("play").textContent = "Play";
  }
  function play() {
    if (playing) return stop();
    if (common() === log.firings.length) follow(0);
    find("play").textContent = "Pause";
    playing = setInterval(next, Math.max(40, Math.min(900, 60000 / log.firings.length))); // a long log takes a minute or two
  }

  // ---- what listens

  find("back").addEventListener("click", () => backTo(fired.length - 1));
  find("reset").addEventListener("click", () => backTo(0));
  for (const figure of all(".sheet, .net")) {
    figure.addEventListener("click", (event) => {
      const box = event.target.closest(".box.next");
      if (!box) return;
      const number = Number(box.dataset.box), net = figure.classList.contains("net");
      const meant = offered().filter(([t, n]) => (net ? t === number - places.length : n === number));
      if (meant.length === 1) fire(meant[0][0]);
      else find("offered").querySelector(`[data-fires="${meant[0][0]}"]`).focus(); // several lead there: the reader chooses
    });
  }
  if (log) {
    find("slider").addEventListener("input", () => follow(Number(find("slider").value)));
    find("next").addEventListener("click", next);
    find("play").addEventListener("click", play);
    all(".firings button").forEach((button, i) => button.addEventListener("click", () => follow(i + 1)));
    for (const level of all(".levels svg")) {
      level.addEventListener("click", (event) => {
        const room = level.getBoundingClientRect();
        follow(Math.min(log.firings.length, Math.max(0, Math.floor(((event.clientX - room.left) / room.width) * (log.firings.length + 1)))));
      });
    }
  }
  document.addEventListener("keydown", (event) => {
    if (event.ctrlKey || event.metaKey || event.altKey || event.target.closest("input, details, a")) return;
    const digit = "123456789".indexOf(event.key);
    if (digit >= 0 && digit < offered().length) fire(offered()[digit][0]);
    else if ((event.key === "Backspace" || event.key === "b") && fired.length) backTo(fired.length - 1);
    else if (event.key === "r") backTo(0);
    else if (event.key === "n" && log) next();
    else if (event.key === "p" && log) play();
    else return;
    event.preventDefault();
  });
  const closed = [];
  window.addEventListener("beforeprint", () => all("details:not([open])").forEach((one) => closed.push(one) && (one.open = true)));
  window.addEventListener("afterprint", () => closed.splice(0).forEach((one) => (one.open = false)));
  all(".screen").forEach((one) => (one.hidden = false));
  show();
})();
