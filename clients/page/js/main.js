// The page: its parts are put together here. Whatever changes the state, or is learnt, is shown: a scene is worked out once, and each view draws from it.

import { Analyst } from "./analyst.js";
import { App } from "./app.js";
import { Bar, Board } from "./board.js";
import { Classroom } from "./classroom.js";
import { Controls } from "./controls.js";
import { $, made, say } from "./dom.js";
import { Files } from "./files.js";
import { Graph } from "./graph.js";
import { kept } from "./keep.js";
import { pause, question } from "./lines.js";
import { Local } from "./local.js";
import { WINS } from "./measured.js";
import { Mistakes } from "./mistakes.js";
import { Moves } from "./moves.js";
import { keepPage } from "./offline.js";
import { named } from "./openings.js";
import { Program } from "./program.js";
import { Quiz } from "./quiz.js";
import { isOver, sideOf } from "./rules.js";
import { pointOf, sceneOf, wantedOf } from "./scene.js";
import { LIMITS, STEPS, words } from "./scores.js";
import { fillSheet } from "./sheet.js";
import { Strip } from "./strip.js";
import { Tabs } from "./tabs.js";
import * as texts from "./texts.js";
import { Told, restText } from "./told.js";
import { SAMPLE, Why } from "./why.js";

const { t } = texts;
const DEPTHS = [2, 4, 6, 8, 10, 12]; // that the engine here looks
const KEPT_AFTER = 3000; // milliseconds, as the first values come before
const LISTS = 120; // milliseconds after which the lists are drawn again while values come in

const app = new App(), local = new Local(), analyst = new Analyst(local, learnt);
let board, moves, mistakes, graph, told, why, strip, program, quiz, files, classroom, controls, tabs;

// --- What is shown ---

function show() {
  want();
  const scene = sceneOf(app.state, analyst);
  drawBoard(scene);
  drawLists(scene);
  for (const part of [program, quiz, files, classroom]) part.show(scene);
}

/** What changes as values come in. */
function drawBoard(scene) {
  const { current, known, options, position, setting, veil, mistake, state } = scene;
  if (known && !timed) performance.mark("values"); // when there were some for the first time
  timed ||= Boolean(known);
  const next = veil || setting ? null : (mistake?.node ?? current.next);
  board.show({
    position,
    last: setting ? "" : current.move,
    next,
    table: options.values || mistake ? known?.table : undefined,
    seen: scene.seen,
    best: options.values || mistake ? known?.best : "",
    certain: known?.ends,
    better: mistake && !veil ? mistake.better : null,
    line: options.line ? known?.line : [],
    hint: state.hint,
    tinted: options.tints,
    turned: options.turned,
    setting,
  });
  told.show(scene);
  strip.show(scene);
  controls.show(scene);
}

function drawLists(scene) {
  const rest = restText(scene, analyst), { tree, game, variation, left, current } = scene;
  why.show(scene, rest);
  moves.show(scene, rest);
  if (tabs.chosen === "mistakes") mistakes.show(scene, rest, why.node);
  const points = [tree.root, ...game].map((node) => pointOf(scene, node)), beside = variation.map((node) => pointOf(scene, node));
  graph.show({ points, beside, from: left.ply, current: current.ply, turn: why.node?.ply ?? 0 });
}

function want() {
  const { state } = app, scene = sceneOf(state, analyst);
  analyst.lines = state.options.three ? 3 : 1;
  if (!state.setting && !scene.rest && !document.hidden) analyst.want(wantedOf(state));
  else {
    analyst.dropAll();
    analyst.wanted = state.setting ? [] : wantedOf(state);
  }
}

let drawing = false, timed = false, listed = 0, said = "";
/** Something was learnt: it is shown with the next picture, once however much it is, and the lists less often. */
function learnt() {
  if (drawing) return;
  drawing = true;
  requestAnimationFrame(() => {
    drawing = false;
    const scene = sceneOf(app.state, analyst), { known, all } = scene.progress, late = LISTS - (performance.now() - listed);
    drawBoard(scene);
    if (late <= 0 || known === all) {
      listed = performance.now();
      drawLists(scene);
    }
    sayValue(scene);
  });
}

/** Says the value of the position that is looked at, once it is known. */
function sayValue({ position, known, veil, state, seen }) {
  const [need] = wantedOf(state);
  if (!known || veil || isOver(position) || !analyst.isKnown(need)) return;
  const sign = `${position} ${known.depth} ${known.best}`;
  const value = words(seen(known.score, sideOf(position))), name = known.ends ? "said.value.certain" : "said.value";
  if (sign !== said) $("live-value").textContent = t(name, { n: known.depth, move: known.best, value });
  said = sign;
}

// --- What is done ---

/** What the buttons of the line below the board do. */
const DOES = {
  try: () => app.play(strip.best),
  next: () => strip.next(),
  game: () => app.toGame(),
  answer: () => quiz.giveUp(),
  question: () => quiz.next(),
  end: () => quiz.end(),
  mine: () => classroom.mine(),
  show: () => classroom.share(),
};

/** A game to try all this on. */
function sample() {
  const { moves: text, ...info } = SAMPLE;
  app.change(() => app.take({ ...info, moves: text, at: "0" }), () => t("said.sample"));
}

function legend() {
  const rows = ["points", "end", "steps", "signs", "tints", "loss", "bar", "keys"], limits = { weak: LIMITS.WEAK, grave: LIMITS.GRAVE, doubtful: LIMITS.DOUBTFUL };
  Object.assign(limits, { least: STEPS[0], most: STEPS[1], ...WINS });
  $("legend-list").replaceChildren(...rows.flatMap((name) => [made("dt", {}, t(`legend.${name}.name`)), made("dd", {}, t(`legend.${name}`, limits))]));
}

function offer(service) {
  const { depth } = app.state.options, most = Math.max(...DEPTHS, ...service);
  const depths = [...new Set([...DEPTHS, ...service, depth])].filter((each) => each <= most).sort((one, two) => one - two);
  $("depth").replaceChildren(...depths.map((each) => made("option", { value: each }, t("depth.option", { n: each }))));
  $("depth").value = String(depth);
}

/** Learns whether the page has a service, and what that can do; a page from a disk asks nobody. */
async function meet() {
  if (!location.protocol.startsWith("http")) return classroom.know(null);
  const about = await question("about.json").catch(() => null);
  classroom.know(about?.service ? about : null);
  if (!about?.service) return;
  analyst.service = about.depths;
  offer(about.depths);
  if (!about.settled) setTimeout(meet, 2000);
}

function listen() {
  const held = document.querySelector(".play");
  new ResizeObserver(() => document.documentElement.style.setProperty("--held", `${held.offsetHeight}px`)).observe(held); // what is reached isn't scrolled behind it
  document.addEventListener("visibilitychange", want);
  window.addEventListener("beforeprint", () => fillSheet(sceneOf(app.state, analyst)));
  window.addEventListener("popstate", () => {
    classroom.leave();
    app.collapses = false;
    const { follow } = app.open(location);
    classroom.follow(follow);
    app.tell(app.where());
  });
  window.addEventListener("online", () => {
    analyst.forget();
    want();
  });
}

async function begin() {
  const engine = local.begin(); // while the page is made
  const search = new URLSearchParams(location.search);
  $("language").value = texts.speak([...search.getAll("lang"), ...(kept("language") ? [kept("language")] : []), ...navigator.languages]);
  texts.fill(document);
  legend();
  board = new Board($("board"), (square) => controls.chosen(square), (text) => app.tell(text));
  moves = new Moves($("moves"), (node) => app.step(() => app.tree.go(node)));
  mistakes = new Mistakes($("mistakes"), (node) => app.showMistake(node));
  graph = new Graph($("graph"), (ply) => controls.toPly(ply));
  told = new Told(analyst, new Bar($("bar")));
  why = new Why({ show: (node) => app.showMistake(node), open: () => $("file").click(), sample });
  strip = new Strip(app, DOES);
  program = new Program(app, local, analyst);
  quiz = new Quiz(app, analyst);
  files = new Files(app);
  classroom = new Classroom(app, files);
  controls = new Controls(app, { board, strip, quiz, local, analyst });
  tabs = new Tabs($("tabs"), (name) => {
    if (!app.views.length) return;
    app.show();
    if (name === "moves") moves.reveal();
  });
  app.choose = (name) => tabs.choose($(`tab-${name}`));
  offer([]);
  listen();
  await pause(0); // a task of its own shows the game
  app.views = [show];
  app.state.lesson.hidden = /[#&?]follow=/.test(location.href); // until the class says what it shows
  const { follow } = app.open(location);
  offer([]);
  files.showFaults();
  document.documentElement.dataset.ready = "yes";
  await engine;
  if (local.engine) say($("computed"), [t("computed.local", { module: local.module }), local.module === "page32.wasm" ? t("computed.lowered") : ""].join(" "));
  app.show();
  await meet();
  app.state.lesson.hidden = Boolean(follow && app.state.lesson.about);
  if (app.state.lesson.about) classroom.follow(follow);
  app.show();
  setTimeout(named); // the names are made before the first click needs them
  setTimeout(keepPage, KEPT_AFTER);
}

begin();
