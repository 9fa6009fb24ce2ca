// Tabs: one of them is chosen and shows its panel; arrow keys go from one to the next where the focus is among them. A click takes no focus, so that
// arrow keys go on through the game.

import { $ } from "./dom.js";

export class Tabs {
  /** `changed` is called when another one was chosen. */
  constructor(element, changed) {
    this.tabs = [...element.querySelectorAll("[role=tab]")];
    this.changed = changed;
    for (const tab of this.tabs) tab.addEventListener("click", () => this.choose(tab));
    element.addEventListener("mousedown", (event) => {
      event.preventDefault();
      document.activeElement?.blur();
    });
    element.addEventListener("keydown", (event) => {
      const at = this.tabs.indexOf(document.activeElement), last = this.tabs.length - 1;
      const to = { ArrowRight: at === last ? 0 : at + 1, ArrowLeft: at ? at - 1 : last, Home: 0, End: last }[event.key];
      if (to === undefined || event.altKey || event.ctrlKey || event.metaKey) return;
      event.preventDefault();
      event.stopPropagation();
      this.choose(this.tabs[to]);
      this.tabs[to].focus();
    });
    this.choose(this.tabs[0]);
  }

  choose(chosen) {
    this.chosen = chosen.id.replace("tab-", "");
    for (const tab of this.tabs) {
      tab.setAttribute("aria-selected", String(tab === chosen));
      tab.tabIndex = tab === chosen ? 0 : -1;
      $(tab.getAttribute("aria-controls")).hidden = tab !== chosen;
    }
    this.changed?.(this.chosen);
  }
}
