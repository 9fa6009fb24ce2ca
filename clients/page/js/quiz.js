// Find the best move: the mistakes of the game that is open, one after another, with values hidden until an answer stands on the board. Those that lost
// discs for certain are asked; where there are none, doubtful moves, whose answers are said to be the evaluation's. A wrong answer may be followed by
// another one.

import { $, reveal, say } from "./dom.js";
import { mistakesOf } from "./judge.js";
import { isExact, lossOf, lossWords, nameOf, words } from "./scores.js";
import { t } from "./texts.js";

const TRIES = 2;

/** The questions of a game: mistakes that are certain, else doubtful moves. */
export function questionsOf(line, side, analyst) {
  const all = mistakesOf(line, analyst, side), certain = all.filter(({ loss }) => loss.unit === "discs");
  return certain.length ? certain : all;
}

export class Quiz {
  constructor(app, analyst) {
    Object.assign(this, { app, analyst, said: "" });
    const on = (id, does) => $(id).addEventListener("click", does);
    on("quiz-begin", () => this.begin());
    on("quiz-next", () => this.next());
    on("quiz-show", () => this.giveUp());
    on("quiz-end", () => this.end());
  }

  get state() {
    return this.app.state.quiz;
  }

  get question() {
    return this.state.questions[this.state.at];
  }

  /** Whether a square that is clicked is an answer: a question waits for one, and its position is looked at. */
  get isAsked() {
    return Boolean(this.state?.open) && this.app.tree.current === this.question.node.parent;
  }

  begin() {
    const { tree, options } = this.app.state, questions = questionsOf(tree.main(), options.side, this.analyst);
    if (!questions.length) return this.end(t("quiz.none"));
    this.app.state.quiz = { questions, at: 0, right: 0, answered: 0, open: true, said: "" };
    this.ask(0);
  }

  next() {
    if (this.state) this.ask(this.state.at + 1);
  }

  ask(at) {
    const { state } = this;
    if (at >= state.questions.length) return this.end(t("quiz.score", { right: state.right, n: state.answered }));
    Object.assign(state, { at, open: true, tries: 0 });
    const { node, loss } = this.question, values = { n: at + 1, all: state.questions.length, side: nameOf(node.side) };
    state.said = t(loss.unit === "discs" ? "quiz.ask" : "quiz.ask.points", values);
    this.app.step(() => this.app.tree.go(node.parent));
    this.app.show();
    this.app.tell(state.said);
  }

  /** A square that was clicked is an answer. */
  answer(move) {
    const { state } = this, known = this.analyst.of(this.question.node.parent.position), score = known.table.get(move), best = known.table.get(known.best);
    if (!score) return;
    const loss = lossOf(best, score), isRight = isExact(score) && loss?.amount === 0, values = { move, lost: lossWords(loss) || t("lost.unknown") };
    state.tries += 1;
    if (!isRight && state.tries < TRIES) return this.again(t("quiz.again", values));
    state.answered += 1;
    state.right += isRight ? 1 : 0;
    this.reveal(isRight ? "quiz.right" : "quiz.wrong", values);
  }

  /** A wrong answer is told, and the best one isn't: another may be given. */
  again(said) {
    this.state.said = said;
    this.app.show();
    this.app.tell(said);
  }

  giveUp() {
    if (this.state?.open) this.reveal("quiz.answer");
  }

  reveal(name, values = {}) {
    const { state } = this, { node, loss } = this.question, known = this.analyst.of(node.parent.position);
    const worth = words({ ...known.table.get(known.best), side: node.side }), said = t(name, { best: known.best, worth, played: node.move, ...values });
    state.open = false;
    state.said = [said, loss.unit === "points" ? t("quiz.points", { n: known.depth }) : "", state.answered ? t("quiz.score", { right: state.right, n: state.answered }) : ""].filter(Boolean).join(" ");
    this.app.state.mistake = this.app.tree.current === node.parent ? node : null;
    this.app.show();
    this.app.tell(state.said);
  }

  end(text = "") {
    this.app.state.quiz = null;
    this.said = text;
    this.app.show();
    if (text) this.app.tell(text);
  }

  show({ state: { quiz } }) {
    say($("quiz-told"), quiz?.said ?? this.said);
    for (const [id, is] of Object.entries({ "quiz-begin": !quiz, "quiz-next": quiz && !quiz.open, "quiz-show": quiz?.open, "quiz-end": quiz })) reveal($(id), is);
  }
}
