// Keeps the last test that the reader has written or opened, when another takes its place in the editor, so that it can be brought back.

import { findById } from "./dom.js";
import { findShownCode } from "./made_from.js";

const KEY = "own";

/** The reader's last own test. */
export class Own {
  /** Takes what was kept. `bring` takes a text back into the editor, with the fields of the code from which it was made. */
  constructor(editor, bring) {
    this.editor = editor;
    this.bringText = bring;
    this.isHere = false;
    [this.kept, this.code] = readStored();
    findById("bring-back").addEventListener("click", () => this.bring());
  }

  /** Returns the reader's own test, whether it is in the editor or kept; null if there is none. */
  get text() {
    return this.isHere ? this.editor.text : this.kept;
  }

  /** Says whether the text in the editor is the reader's own. */
  put(isHere) {
    this.isHere = isHere;
    findById("bring-back").hidden = this.kept === null || this.kept === this.editor.text;
  }

  /** Keeps the text in the editor, if it is the reader's own: another is about to take its place. */
  keep() {
    if (!this.isHere || !this.editor.text.trim()) return;
    [this.kept, this.code] = [this.editor.text, findShownCode()];
    store([this.kept, this.code]);
  }

  /** Brings back what is kept. Returns whether there is something. */
  bring() {
    if (this.kept === null) return false;
    this.bringText(this.kept, this.code);
    return true;
  }
}

/** Returns the reader's own test and the fields of its code, as they are stored; null in place of a test if there is none. */
function readStored() {
  try {
    return JSON.parse(sessionStorage.getItem(KEY)) ?? [null];
  } catch {
    return [null];
  }
}

/** Stores the reader's own test, and the fields of its code. */
function store(own) {
  try {
    sessionStorage.setItem(KEY, JSON.stringify(own));
  } catch {
    // Without a store it is kept till the page is loaded anew.
  }
}
