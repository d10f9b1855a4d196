// The hints on faults and slips, the words on the page, the walk through it, the panel on fences, and what fits the page to a projector: the part of its code
// that is loaded after the first answer, or when a text has a fault.

import { fillAbout } from "./about.js";
import { explainFault, explainMissingRowEnd } from "./faults.js";
import { Fences } from "./fences.js";
import { findFurtherFaults } from "./further_faults.js";
import { takeWalk } from "./guided_walk.js";
import { ProjectorFit } from "./projector_fit.js";
import { makeSlipNotes } from "./slips.js";
import { findUnwritten } from "./unwritten.js";

/** Returns the hint on a fault; one without words if the code that looks for it fails, so that lw's own sentence is shown. */
function explainSafely(fault, text) {
  try {
    return explainFault(fault, text);
  } catch (error) {
    console.error(error);
    return { words: null, change: null };
  }
}

/** Returns what fits the view for a projector into the window. */
const makeProjectorFit = () => new ProjectorFit();

/** The functions that errors.js, main.js, present.js and states.js call. */
export const hints = { explainFault: explainSafely, explainMissingRowEnd, fillAbout, findFurtherFaults, Fences, findUnwritten, makeProjectorFit, makeSlipNotes, takeWalk };
