// An editor of a text, with line numbers and one mark, for a chosen part or for the place of a refusal.
import { byId, element } from "./dom.js";

/** Returns the number of line ends in a text. */
const linesIn = (text) => text.split("\n").length - 1;

/** Returns the numbers from `first` to the one before `end`, each in a line. */
const numbersOf = (first, end) => Array.from({ length: Math.max(0, end - first) }, (_, at) => `${first + at}\n`).join("");

/** The editor around the text area with this id. */
export class Editor {
  #numbers;
  #backdrop;

  constructor(id) {
    this.area = byId(id);
    this.#numbers = byId(`${id}-numbers`);
    this.#backdrop = byId(`${id}-backdrop`);
    this.area.addEventListener("scroll", () => this.#followScroll());
  }

  get text() {
    return this.area.value;
  }

  /** Replaces the text of the editor. */
  open(text) {
    this.area.value = text;
    this.area.scrollTop = 0;
  }

  /** Shows the line numbers, one of which may be marked as wrong. */
  #showNumbers(count, wrong) {
    const shown = `${count} ${wrong}`;
    if (this.#numbers.dataset.shown !== shown) {
      this.#numbers.dataset.shown = shown;
      const upTo = wrong ?? count + 1;
      const part = wrong ? [element("span", { class: "wrong" }, wrong), "\n"] : [];
      this.#numbers.replaceChildren(numbersOf(1, upTo), ...part, numbersOf(upTo + 1, count + 1));
    }
  }

  /** Marks a part of the text as a step or as a place. Behind the text, it lays out only the marked part and what is before it in
   * its line, so the cost does not depend on the length of the text. */
  showMarks(mark, kind, wrongLine) {
    const { text } = this;
    this.#showNumbers(linesIn(text) + 1, wrongLine);
    this.#backdrop.replaceChildren();
    if (mark) {
      const [from, to] = mark;
      const before = text.slice(0, from);
      this.#backdrop.style.setProperty("--above", linesIn(before));
      this.#backdrop.append(before.slice(before.lastIndexOf("\n") + 1), element("span", { class: kind }, text.slice(from, to) || " "));
    }
  }

  /** Marks the place of a refusal, and marks the text as valid or invalid; `place` is undefined if no place is known. */
  showRefusal(isRefused, place) {
    this.area.setAttribute("aria-invalid", isRefused);
    if (isRefused) {
      this.showMarks(place && [place.from, place.to], "place", place?.line);
    }
  }

  #followScroll() {
    const { scrollTop, scrollLeft } = this.area;
    this.#numbers.scrollTop = scrollTop;
    this.#backdrop.style.transform = `translate(${-scrollLeft}px, ${-scrollTop}px)`;
  }

  /** Scrolls to the marked step, unless the caret is in the text. */
  scrollToMark() {
    const mark = this.#backdrop.querySelector(".step");
    if (mark && document.activeElement !== this.area) {
      const top = mark.offsetTop;
      this.area.scrollTop = Math.max(0, Math.min(this.area.scrollTop, top - 20), top - this.area.clientHeight + 40);
    }
  }

  /** Selects a part of the text. */
  select({ from, to }) {
    this.area.focus();
    this.area.setSelectionRange(from, to);
  }
}

/** Shows in an element the line by which a text is refused, and why it is. */
export function showWhy(panel, line, why) {
  const strong = document.createElement("strong");
  strong.textContent = line;
  panel.replaceChildren(strong, why ? `\n${why}` : "");
}
