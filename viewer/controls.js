"use strict";
// The controls of the page: keys, buttons, the window.

// ---- keys

const KEYS = {
  ArrowLeft: (far) => goTo(PAGE.k - (far ? 10 : 1)),
  ArrowRight: (far) => goTo(PAGE.k + (far ? 10 : 1)),
  Home: () => goTo(RUN.begin),
  End: () => goTo(RUN.end),
  " ": () => play(!PAGE.timer),
  Escape: () => {
    follow(null);
    setRange(null);
  },
};

// Those of one letter or sign, which can be turned off.
const LETTERS = {
  n: goToNextStep,
  p: goToStepBefore,
  ",": () => choose(PAGE.p - 1),
  ".": () => choose(PAGE.p + 1),
  "[": () => setEdge("from"),
  "]": () => setEdge("end"),
  "+": () => zoomTime(0.5),
  "-": () => zoomTime(2),
  0: showAll,
  "/": () => byId("find").focus(),
};

const takesText = (element) => element.tagName === "SELECT" || (element.tagName === "INPUT" && ["number", "text"].includes(element.type));
const takesSpace = (element) => element.type === "checkbox" || ["BUTTON", "SUMMARY"].includes(element.tagName);

function onKey(event) {
  const element = event.target;
  if (event.key === "Escape" && takesText(element)) return element.blur();
  if (event.ctrlKey || event.altKey || event.metaKey || takesText(element)) return;
  const box = VIEW.boxes.findIndex((view) => view.group === element);
  if (event.key === "Enter" && box >= 0) choose(box);
  if (event.key === " " && takesSpace(element)) return;
  const action = KEYS[event.key] || (PAGE.hasKeys && LETTERS[event.key]);
  if (!action) return;
  event.preventDefault();
  action(event.shiftKey);
}

// ---- controls

const on = (id, event, action, options) => byId(id).addEventListener(event, action, options);

function connectCycles() {
  on("first", "click", () => goTo(RUN.begin));
  on("back", "click", () => goTo(PAGE.k - 1));
  on("forth", "click", () => goTo(PAGE.k + 1));
  on("last", "click", () => goTo(RUN.end));
  on("play", "click", () => play(!PAGE.timer));
  on("speed", "change", () => PAGE.timer && play(true));
  on("before", "click", goToStepBefore);
  on("after", "click", goToNextStep);
  on("slide", "input", (event) => goTo(Number(event.target.value)));
  on("cycle", "change", (event) => goTo(Number(event.target.value)));
  on("search", "submit", (event) => {
    event.preventDefault();
    find(true);
  });
  on("find", "keydown", (event) => {
    if (event.key !== "Enter" || !event.shiftKey) return;
    event.preventDefault();
    find(false);
  });
  on("find-before", "click", () => find(false));
  on("return", "click", goBack);
}

function connectPanel() {
  const zoomGrid = (factor) => {
    PAGE.zoom = Math.min(6, Math.max(0.5, PAGE.zoom * factor));
    redraw();
    showBoxes(byId("grid"), [PAGE.p]);
  };
  on("less", "click", () => zoomGrid(0.8));
  on("more", "click", () => zoomGrid(1.25));
  on("mode", "change", (event) => setMode(event.target.value));
  on("pick", "change", (event) => choose(Number(event.target.value)));
  on("decimal", "change", (event) => {
    PAGE.isDecimal = event.target.checked;
    if (PAGE.way.length) byId("way").replaceChildren(...wayParts(PAGE.way));
    draw();
  });
  on("keys", "change", (event) => {
    PAGE.hasKeys = event.target.checked;
    keepAddress();
  });
  for (const id of ["counts", "words-of-cycle"]) on(id, "toggle", () => drawTable(id));
  on("path", "toggle", togglePath);
}

// The parts of the page can be hidden, but not the last one of grid and timeline.
function connectViews() {
  for (const name of ["grid", "time", "panel"]) {
    on("see-" + name, "click", () => {
      const isHidden = document.body.classList.toggle("no-" + name), other = { grid: "time", time: "grid" }[name];
      if (isHidden && other) showPart(other);
      setAttribute(byId("see-" + name), "aria-pressed", !isHidden);
      redraw();
    });
  }
  on("large", "click", () => {
    setLarge(!PAGE.isLarge);
    redraw();
  });
}

function showPart(name) {
  document.body.classList.remove("no-" + name);
  setAttribute(byId("see-" + name), "aria-pressed", true);
}

function setLarge(isLarge) {
  PAGE.isLarge = isLarge;
  document.documentElement.classList.toggle("larger", isLarge);
  setAttribute(byId("large"), "aria-pressed", isLarge);
}

function connectWindow() {
  document.addEventListener("keydown", onKey);
  window.addEventListener("hashchange", () => {
    readAddress();
    redraw();
    choose(PAGE.p);
  });
  window.addEventListener("resize", redraw);
  for (const [name, isPrinted] of [["beforeprint", true], ["afterprint", false]]) {
    window.addEventListener(name, () => {
      PAGE.isPrinted = isPrinted;
      redraw();
    });
  }
  matchMedia("(prefers-color-scheme: dark)").addEventListener("change", () => {
    drawKeys();
    drawOverview();
    drawTime();
  });
}
