// The proved program on this machine, by the server of the page: a workbench that answers as that of module.js does. It waits for each
// answer, as a worker may; if the worker is ended, the server ends the run.

import { NoAnswer, decodeText, encodeText } from "./program.js";

export const NO_SERVER = "The server does not answer. Start ./page again.";

/** The program on this machine, as a workbench. */
export class Served {
  /** Says how much memory a run may take, as the end of a sentence on a run that needed more. */
  room = "it may have (1 GiB)";

  /**
   * Returns the answer to words as on the command line: the status, whether it is a fault, and the bytes of the answer or of the fault. Throws NoAnswer if
   * the server has none.
   * @param {string[]} words
   * @param {Uint8Array} text
   * @returns {{status: number, isFault: boolean, out: Uint8Array}}
   */
  run(words, text) {
    const { status, printed, fault, error } = ask("run", { words, text: decodeText(text) });
    if (error) throw new NoAnswer(error);
    return { status, isFault: fault !== null, out: encodeText(fault ?? printed) };
  }
}

/** Asks the server, and waits. Returns its answer, of which `error` says why there is none. */
function ask(path, question) {
  try {
    const request = new XMLHttpRequest();
    request.open("POST", path, false);
    request.setRequestHeader("Content-Type", "application/json");
    request.send(JSON.stringify(question));
    return JSON.parse(request.responseText);
  } catch {
    return { error: NO_SERVER };
  }
}
