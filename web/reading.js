// Shows a document of a made site in light or dark, as the reader has chosen here or on the page, or otherwise as the system asks. A link to a test
// that has the file of the document on the page in place of the page itself leads to the page.

"use strict";
(() => {
  const KEY = "theme";

  /** Returns the choice that the browser keeps, or null. */
  function readStored() {
    try {
      return localStorage.getItem(KEY);
    } catch {
      return null;
    }
  }

  /** Shows a theme, and has the list say so. */
  function show(theme, list) {
    const isForced = theme === "light" || theme === "dark";
    if (isForced) document.documentElement.dataset.theme = theme;
    else delete document.documentElement.dataset.theme;
    if (list) list.value = isForced ? theme : "system";
  }

  /** Lets the list choose the theme, and keeps the choice for the page and the other documents. */
  function bind() {
    const list = document.getElementById("theme");
    show(readStored(), list);
    list.addEventListener("change", () => {
      show(list.value, list);
      try {
        localStorage.setItem(KEY, list.value);
      } catch {
        // Without a store the choice holds for this document.
      }
    });
    addEventListener("storage", (event) => event.key === KEY && show(event.newValue, list));
  }

  const { pathname, hash } = location;
  if (pathname.endsWith("/page.html") && /^#(?:.*&)?(?:example|test|text)=/.test(hash)) location.replace(`index.html${hash}`);
  show(readStored());
  addEventListener("DOMContentLoaded", bind);
})();
