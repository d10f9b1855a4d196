// A worker of the page: answers questions by the module that comes with them, or without a module by the program on this
// machine, so that the page continues meanwhile, and so that a run can be ended. It stays from one question to the next, with the answers that
// printed for it; a run that is ended ends it, and another takes its place. Before an answer it may say how far it is: `progress`.

import { Workbench } from "./module.js";
import { Program } from "./program.js";
import { answerQuestion } from "./questions.js";
import { Served } from "./served.js";

let byModule = null;

/** Returns the program that answers. There is one module for all questions, and it stays the same; that on this machine may not. */
function findProgram(module) {
  if (!module) return new Program(new Served());
  byModule ??= new Program(new Workbench(module));
  return byModule;
}

/** Returns the answer to a question, or an error if the module fails. */
function answer({ module, question, fields }) {
  try {
    return answerQuestion(findProgram(module), question, fields, (progress) => postMessage({ progress }));
  } catch (error) {
    return { error: `The page failed: ${error}.`, isBeyond: true };
  }
}

onmessage = ({ data }) => postMessage(answer(data));
