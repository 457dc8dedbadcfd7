// The two tabs: one plays a script, the other checks a record of calls.
import { byId } from "./dom.js";

const tabs = ["script-tab", "record-tab"].map(byId);
const views = ["script-view", "record-view"].map(byId);

/** Returns whether the tab of records is shown. */
export const isRecordTab = () => document.body.classList.contains("records");

/** Shows the tab of records, or that of scripts. */
export function showTab(isRecord) {
  document.body.classList.toggle("records", isRecord);
  tabs.forEach((tab, at) => {
    const isShown = at === Number(isRecord);
    tab.setAttribute("aria-selected", isShown);
    tab.tabIndex = isShown ? 0 : -1;
    views[at].hidden = !isShown;
  });
}

/** Calls `change` when the reader chooses the other tab, by a click or by the arrow keys. */
export function listenToTabs(change) {
  tabs.forEach((tab, at) => {
    tab.addEventListener("click", () => change(at === 1));
    tab.addEventListener("keydown", (event) => {
      if (event.key === "ArrowLeft" || event.key === "ArrowRight") {
        event.preventDefault();
        change(at === 0);
        tabs[1 - at].focus();
      }
    });
  });
}
