// Checks that the page can be used by keyboard and by a screen reader. This runs in the page, and returns what is wrong.
(() => {
  const wrong = [];
  const told = (element) => `<${element.localName}${element.id ? ` id=${element.id}` : ""}>`;
  const isShown = (element) => element.checkVisibility?.() ?? true;
  const textOfIds = (ids) => ids.split(/\s+/).map((id) => document.getElementById(id)?.textContent ?? "").join(" ");

  // ---- names
  const nameOf = (element) => (element.getAttribute("aria-label")
    ?? (element.hasAttribute("aria-labelledby") ? textOfIds(element.getAttribute("aria-labelledby")) : undefined)
    ?? [...(element.labels ?? [])].map((each) => each.textContent).join(" ")).trim() || element.textContent.trim();
  for (const element of document.querySelectorAll("button, select, input, textarea, section, [role=group], [tabindex='0'], table")) {
    if (isShown(element) && !nameOf(element)) {
      wrong.push(`${told(element)} has no name`);
    }
  }
  for (const element of document.querySelectorAll("*")) {
    for (const attribute of ["aria-labelledby", "aria-describedby", "for"]) {
      for (const id of (element.getAttribute(attribute) ?? "").split(/\s+/).filter(Boolean)) {
        if (!document.getElementById(id)) {
          wrong.push(`${told(element)}: ${attribute} names ${id}, which is not there`);
        }
      }
    }
  }

  // ---- structure
  const ids = [...document.querySelectorAll("[id]")].map(({ id }) => id);
  wrong.push(...ids.filter((id, at) => ids.indexOf(id) !== at).map((id) => `the id ${id} stands twice`));
  if (!document.documentElement.lang || !document.title) {
    wrong.push("the page has no language or no title");
  }
  if (document.querySelectorAll("main").length !== 1 || document.querySelectorAll("h1").length !== 1) {
    wrong.push("the page has not one main part and one first heading");
  }
  const levels = [...document.querySelectorAll("h1, h2, h3, h4")].filter(isShown).map((each) => Number(each.localName[1]));
  levels.forEach((level, at) => at > 0 && level > levels[at - 1] + 1 && wrong.push(`a heading of level ${level} follows one of level ${levels[at - 1]}`));
  for (const table of document.querySelectorAll("table")) {
    for (const cell of table.querySelectorAll("th:not([scope])")) {
      wrong.push(`${told(table)}: a heading "${cell.textContent}" without a scope`);
    }
  }
  for (const element of document.querySelectorAll("[tabindex]")) {
    if (element.tabIndex > 0) {
      wrong.push(`${told(element)} changes the order of the keys`);
    }
  }
  const picture = document.getElementById("picture").shadowRoot.querySelector("svg");
  if (picture && !(picture.getAttribute("role") === "img" && picture.querySelector("title")?.textContent && picture.querySelector("desc")?.textContent)) {
    wrong.push("the diagram has no title or no description");
  }
  for (const element of document.querySelectorAll("*")) {
    const scrolls = ["auto", "scroll"].includes(getComputedStyle(element).overflowY) && element.scrollHeight > element.clientHeight + 1;
    if (scrolls && isShown(element) && element.tabIndex < 0 && !element.querySelector("button, input, a") && element.getAttribute("role") !== "status") {
      wrong.push(`${told(element)} scrolls, and no key reaches it`);
    }
  }

  // ---- contrast
  const canvas = document.createElement("canvas").getContext("2d", { willReadFrequently: true });
  const over = (colour, under) => {
    canvas.fillStyle = `rgb(${under.join(",")})`;
    canvas.fillRect(0, 0, 1, 1);
    canvas.fillStyle = colour;
    canvas.fillRect(0, 0, 1, 1);
    return [...canvas.getImageData(0, 0, 1, 1).data].slice(0, 3);
  };
  const linear = (part) => (part <= 10.31 ? part / 3294.6 : ((part / 255 + 0.055) / 1.055) ** 2.4);
  const luminance = ([r, g, b]) => 0.2126 * linear(r) + 0.7152 * linear(g) + 0.0722 * linear(b);
  const ratio = (a, b) => {
    const [light, dark] = [luminance(a), luminance(b)].sort((x, y) => y - x);
    return (light + 0.05) / (dark + 0.05);
  };
  const groundOf = (element) => {
    const chain = [];
    for (let each = element; each; each = each.parentElement) {
      chain.unshift(getComputedStyle(each).backgroundColor);
    }
    return chain.reduce((under, colour) => over(colour, under), [255, 255, 255]);
  };
  const fades = (element) => element.closest(".stale .scrolls") !== null || element.closest("[aria-hidden=true]") !== null || element.disabled;
  let least = 21;
  const check = (name, colour, ground) => {
    const found = ratio(over(colour, ground), ground);
    least = Math.min(least, found);
    if (found < 4.5) {
      wrong.push(`${name}: contrast ${found.toFixed(2)}`);
    }
  };
  for (const element of document.body.querySelectorAll("*")) {
    const hasText = [...element.childNodes].some((each) => each.nodeType === 3 && each.data.trim()) || element.localName === "textarea";
    if (hasText && isShown(element) && !fades(element) && !["script", "style", "option"].includes(element.localName)) {
      check(`${told(element)} "${element.textContent.slice(0, 20)}"`, getComputedStyle(element).color, groundOf(element));
    }
  }
  if (picture) {
    const ground = over(getComputedStyle(picture.querySelector("rect.p")).fill, [255, 255, 255]);
    for (const text of picture.querySelectorAll("text.h, text.a")) {
      check(`the diagram's "${text.textContent}"`, getComputedStyle(text).fill, ground);
    }
  }
  return { wrong: [...new Set(wrong)], least: Number(least.toFixed(2)) };
})()
