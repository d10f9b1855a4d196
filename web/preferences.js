// The options that the reader has switched on. The browser keeps them from one visit to the next. All are off at first.

/** A switch that is kept under a name. */
class Preference {
  constructor(name) {
    const isOn = readStored(name) === "1";
    Object.assign(this, { name, listeners: [], isOn, isChosen: isOn });
  }

  /** Switches it as the reader has chosen. */
  set(isOn) {
    this.isChosen = isOn;
    store(this.name, isOn ? "1" : "0");
    this.show(isOn);
  }

  /** Switches it, and calls back all that depends on it. The browser does not keep this. */
  show(isOn) {
    this.isOn = isOn;
    for (const listener of this.listeners) listener();
  }

  /** Calls a listener whenever the preference is switched. */
  onChange(listener) {
    this.listeners.push(listener);
  }

  /** Lets a checkbox show and switch it. */
  bindTo(box) {
    const follow = () => {
      box.checked = this.isOn;
    };
    this.onChange(follow);
    follow();
    box.addEventListener("change", () => this.set(box.checked));
  }
}

/**
 * Returns the text that the browser keeps under a name, or null.
 * @param {string} name
 * @returns {string | null}
 */
function readStored(name) {
  try {
    return localStorage.getItem(name);
  } catch {
    return null;
  }
}

/** Stores a preference. */
function store(name, value) {
  try {
    localStorage.setItem(name, value);
  } catch {
    // Without a store it is kept till the page is loaded anew.
  }
}

const THEMES = ["system", "light", "dark"];

/**
 * Shows the page by light or by dark, as the reader has chosen in a list, or else as the system asks.
 * @param {HTMLSelectElement} list
 */
export function bindTheme(list) {
  const show = (theme) => {
    if (theme === THEMES[0]) delete document.documentElement.dataset.theme;
    else document.documentElement.dataset.theme = theme;
  };
  const kept = readStored("theme");
  list.value = THEMES.includes(kept) ? kept : THEMES[0];
  show(list.value);
  list.addEventListener("change", () => {
    store("theme", list.value);
    show(list.value);
  });
}

/** Whether cache lines are shown. */
export const caches = new Preference("caches");

/** Whether the type is large. */
export const largeType = new Preference("large");

/** Whether the reader has gone a step in a run. */
export const hasStepped = new Preference("stepped");

/** Gives the page the size of its type. It is called first: what depends on the size is laid out after it. */
function applyScale() {
  document.documentElement.classList.toggle("large", largeType.isOn);
}

largeType.onChange(applyScale);
applyScale();
