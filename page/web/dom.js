// Short functions for the page's elements.

export const byId = (id) => document.getElementById(id);

/** Returns an element with these attributes and children. */
export function element(name, attributes = {}, ...children) {
  const made = document.createElement(name);
  for (const [key, value] of Object.entries(attributes)) {
    made.setAttribute(key, value);
  }
  made.append(...children);
  return made;
}

/** The height at the top of a panel that a fixed head may cover, in pixels. */
const COVERED = 28;

/** Returns the distance to scroll so that a part from `from` to `to` is between `low` and `high`. */
const shiftInto = (from, to, low, high) => (from < low ? from - low : Math.max(0, Math.min(to - high, from - low)));

/** Scrolls a panel, and not the page, until a part of it is visible beside the `coveredLeft` pixels that are covered at its left. */
export function bringInto(panel, part, coveredLeft = 0) {
  const [outer, inner] = [panel, part].map((each) => each.getBoundingClientRect());
  panel.scrollTop += shiftInto(inner.top, inner.bottom, outer.top + COVERED, outer.bottom);
  panel.scrollLeft += shiftInto(inner.left, inner.right, outer.left + coveredLeft, outer.right);
}
