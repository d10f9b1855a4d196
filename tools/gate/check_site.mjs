// Compares the answers of the page's JavaScript with those of tools/gate/plain_answers.py, which uses other means, for every example and for
// typed texts; and some answers with values in this file. The last line is 'N passed, M failed'.
//
//     node tools/gate/check_site.mjs [--module FILE | --server ADDRESS] [NAME...]
//
// Both ask the same program, crates/lw/out/lw, and for lists by a search crates/beyond/out/beyond, if it is built. With --module the JavaScript
// asks the WebAssembly module instead, with --server a running ./page; then each answer is compared with the program's too. (Before version 24
// node needs --experimental-wasm-memory64.) The JavaScript is that of web/, which is copied, since node takes a file for a module by the folder
// that it is in. NAME: it asks only these examples, and no typed texts.

import { spawn, spawnSync } from "node:child_process";
import fs from "node:fs";
import os from "node:os";
import path from "node:path";
import readline from "node:readline";
import { fileURLToPath, pathToFileURL } from "node:url";
import { isDeepStrictEqual, parseArgs } from "node:util";
import { MessageChannel, Worker, receiveMessageOnPort } from "node:worker_threads";
import { compareAssemblyTexts } from "./assembly_texts.mjs";
import { compareCPrograms } from "./c_programs.mjs";
import { compareChangedPrograms } from "./changed_programs.mjs";
import { compareConvertedPrograms } from "./converted_programs.mjs";
import { comparePhrases } from "./phrases.mjs";
import { comparePaperTexts } from "./paper_texts.mjs";
import { comparePseudoTexts } from "./pseudo_texts.mjs";
import { compareProgramsInTerms } from "./programs_in_terms.mjs";
import { compareRustPrograms } from "./rust_programs.mjs";
import { SLOWEST, measure } from "./typed_texts.mjs";

const HOME = path.dirname(path.dirname(path.dirname(fileURLToPath(import.meta.url))));
const PROGRAM = `${HOME}/crates/lw/out/lw`;
const BEYOND = `${HOME}/crates/beyond/out/beyond`;
const WORKERS = 4;
const PROTOCOLS = ["mesi", "moesi"];
const PLAIN_ANSWERS = [`${HOME}/tools`, "gate.plain_answers"];
// The page's words on a test that its own reader does not read.
const UNREAD = /^The page's own reader of tests, which this needs,/;
// Asks a server, one request after another, and says when there is the answer.
const ASKER = `
const http = require("node:http");
require("node:worker_threads").parentPort.on("message", ({ address, method, headers, body, port, isTold }) => {
  const request = http.request(address, { method, headers, agent: false }, async (answer) => {
    const parts = [];
    for await (const part of answer) parts.push(part);
    tell(Buffer.concat(parts).toString());
  });
  request.on("error", () => tell(null)).end(body);
  function tell(text) {
    port.postMessage(text);
    Atomics.store(isTold, 0, 1);
    Atomics.notify(isTold, 0);
  }
});
`;

/** The program, called as the page calls the module. It runs once for the same words and text. */
class Native {
  static answers = new Map();

  run(words, text) {
    const key = JSON.stringify([words, Buffer.from(text).toString("latin1")]);
    if (!Native.answers.has(key)) Native.answers.set(key, this.ask(words, text));
    return Native.answers.get(key);
  }

  ask(words, text) {
    if (words[0] === "film") return this.film(words, text);
    const ran = spawnSync(words[0] === "--budget" ? BEYOND : PROGRAM, words, { input: text, maxBuffer: 1 << 28 });
    const isFault = ran.stderr.length > 0;
    return { status: ran.status, isFault, out: isFault ? ran.stderr.subarray(0, -1) : ran.stdout };
  }

  /** A film, by the pages of replays. */
  film([, schedule, ...option], text) {
    const events = schedule.split(" ").filter(Boolean);
    const prefixes = Array.from({ length: events.length + 1 }, (_, count) => events.slice(0, count).join(" "));
    const pages = prefixes.map((it) => this.run(["replay", it, ...option], text));
    const refused = pages.find((it) => it.isFault);
    return refused ?? { status: 0, isFault: false, out: Buffer.concat(pages.flatMap((it) => [it.out, Buffer.from("\n")])) };
  }
}

/**
 * A module or a server. Each of its answers is compared with the program's, except replays: some of these are compared below, and all
 * others are in films and in what can be done next, which are compared with those of tools/gate/plain_answers.py.
 */
class Both {
  constructor(workbench, tally) {
    this.workbench = workbench;
    this.tally = tally;
    this.native = new Native();
  }

  get room() {
    return this.workbench.room;
  }

  get hasFilmsAndMarks() {
    return this.workbench.hasFilmsAndMarks;
  }

  run(words, text) {
    const ran = this.workbench.run(words, text);
    const isBeyond = words[0] === "--budget";
    if (words[0] !== "replay" && (!isBeyond || fs.existsSync(BEYOND))) this.compare(words, text, ran);
    return ran;
  }

  compare(words, text, ran) {
    const shown = (it) => [it.status, it.isFault, Buffer.from(it.out).toString()];
    const what = `what a module or a server answers to ${words.join(" ")}`;
    this.tally.compare(what, shown(this.native.run(words, text)), shown(ran));
  }
}

/** The numbers of comparisons that passed and failed. */
class Tally {
  passed = 0;
  failed = 0;

  compare(what, expected, actual) {
    if (isDeepStrictEqual(expected, actual)) {
      this.passed += 1;
      return;
    }
    this.failed += 1;
    console.log(`${what}\n  wanted: ${JSON.stringify(expected)}\n  found:  ${JSON.stringify(actual)}`.slice(0, 3000));
  }
}

/** The synchronous requests to a server that web/served.js needs. (node has none; another thread asks.) */
function requestsTo(server) {
  const asker = new Worker(ASKER, { eval: true });
  asker.unref();
  return class XMLHttpRequest {
    headers = { Origin: new URL(server).origin };

    open(method, path, isAwaitedElsewhere) {
      if (isAwaitedElsewhere) throw new Error("a request of the page is waited for");
      Object.assign(this, { method, address: new URL(path, server).href });
    }

    setRequestHeader(name, value) {
      this.headers[name] = value;
    }

    send(text) {
      const { method, address } = this;
      const { port1, port2 } = new MessageChannel();
      const isTold = new Int32Array(new SharedArrayBuffer(4));
      const body = Buffer.from(text);
      const headers = { ...this.headers, "Content-Length": body.length };
      asker.postMessage({ address, method, headers, body, port: port2, isTold }, [port2]);
      Atomics.wait(isTold, 0, 0);
      this.responseText = receiveMessageOnPort(port1).message;
      port1.close();
      if (this.responseText === null) throw new Error("the server does not answer");
    }
  };
}

/** A Python that answers the same questions by other means. */
class Plain {
  constructor() {
    this.process = spawn("python3", PLAIN_ANSWERS, { stdio: ["pipe", "pipe", "inherit"] });
    this.lines = readline.createInterface({ input: this.process.stdout })[Symbol.asyncIterator]();
  }

  async ask(question, fields) {
    this.process.stdin.write(`${JSON.stringify({ question, ...fields })}\n`);
    return JSON.parse((await this.lines.next()).value);
  }

  end() {
    this.process.stdin.end();
  }
}

/** The JavaScript of the page, as modules of node. */
async function loadPage() {
  const room = fs.mkdtempSync(path.join(os.tmpdir(), "lw-site-"));
  try {
    fs.writeFileSync(`${room}/package.json`, '{"type": "module"}');
    const names = fs.readdirSync(`${HOME}/web`).filter((it) => it.endsWith(".js"));
    for (const name of names) fs.copyFileSync(`${HOME}/web/${name}`, `${room}/${name}`);
    const load = (name) => import(pathToFileURL(`${room}/${name}.js`).href);
    const parts = [
      "aligned", "condition_words", "differences", "faults", "fence_edit", "finding", "further_faults", "module", "nearest", "program", "questions",
      "replays", "seen_here", "served", "slips", "verdicts",
    ];
    const loaded = await Promise.all(parts.map(load));
    return Object.fromEntries(parts.map((name, at) => [name, loaded[at]]));
  } finally {
    fs.rmSync(room, { recursive: true });
  }
}

// Questions.

/** The questions on a text, given the schedules that lw lists. */
function questionsOn(text) {
  const listed = new Native().run(["schedules"], text);
  const lines = listed.isFault ? [] : listed.out.toString().split("\n").slice(2, -1);
  const entries = lines.flatMap((line, at) => (at % 2 ? [] : [{ state: line, schedule: lines[at + 1].trim() }]));
  const chosen = [...new Set([entries[0], entries[entries.length >> 1], entries.at(-1)])].filter(Boolean);
  const films = chosen.map(({ state }, at) => ["film", { state, protocol: PROTOCOLS[at % 2] }]);
  return [
    ["states", {}],
    ["compile", {}],
    ["fences", { everything: false }],
    ["fences", { everything: true }],
    ...moreFencesOf(text),
    ["film", { state: "x=77;", protocol: "mesi" }],
    ...films,
    ...chosen.map(({ schedule }) => ["graph", { schedule }]),
    ...refusalsOf(text, entries.map(({ state }) => state)),
    ...runsOf(text, chosen.at(-1)?.schedule ?? ""),
  ];
}

// The most accesses of a test in which places for fences are looked for.
const FEW_ACCESSES = 14;

/** Returns the questions where further fences would answer that of a test, which locks matter, and of an x86 test what interleaving gives, if it is small. */
function moreFencesOf(text) {
  const number = (String(text).match(/\[|:=/g) ?? []).length;
  const interleaved = /^\s*X86/.test(text) ? [["interleaved", {}]] : [];
  // What is enough together is asked if there is a lock; what it needs to know of other tests may be beyond lw's limits.
  const asked = ["exchanges", ...(/XCHG|XADD|swap|fetchadd/i.test(text) ? ["enough together"] : [])];
  const exchanges = asked.flatMap((it) => [[it, { everything: false }], [it, { everything: true }]]);
  return number <= FEW_ACCESSES ? [["more fences", {}], ...exchanges, ...interleaved] : [];
}

// A test of so many accesses and fences, compiled, has few executions.
const FEW = 7;

/** Questions why a test does not end in a state: of a small test in all, in one that it has, and in one that no thread can write. */
function refusalsOf(text, states) {
  const compiled = new Native().run(["compile"], text);
  const isSmall = !compiled.isFault && (compiled.out.toString().match(/\[|MFENCE/g) ?? []).length <= FEW;
  if (!isSmall || !states.length) return [];
  const lines = ["all", states[0], states[0].replace(/\d+;$/, "77;"), "y", ""];
  return lines.map((state) => ["why not", { state }]);
}

/** Questions on runs: of a source test a schedule of the source, step by step, with events that are refused. */
function runsOf(text, listed) {
  const schedule = !/^\s*SRC/.test(text) ? listed : / P0 \|/.test(text) ? "P0 P1 P0 P1" : "P0";
  const events = schedule.split(" ");
  const half = events.slice(0, events.length >> 1).join(" ");
  const moves = [half, "", schedule, `${schedule} P3`, "P0 Q1"].map((it, at) => ["moves", { schedule: it, protocol: PROTOCOLS[at % 2], whole: at % 3 !== 1 }]);
  const pictures = [true, false].map((strip) => ["picture", { schedule: half, protocol: "moesi", strip }]);
  const refused = { schedule: `${half} D0 E0:x D1 D0`, protocol: "mesi" };
  return [...moves, ...pictures, ...[true, false].map((strip) => ["picture", { ...refused, strip }])];
}

/** An x86 test with all instructions whose list is refused for its limits, so that the page walks through it by itself. */
const WALKED = `X86 Walked
{ x=5; 1:EBX=3; }
 P0 | P1 ;
 MOV [x],$1 | MOV [x],EBX ;
 MOV EAX,[x] | LOCK XADD [x],EBX ;
 XCHG [x],EAX | ADD EBX,$4294967288 ;
 CMP EAX,$1 | JNE B ;
 JE A | MOV [x],$7 ;
 MFENCE | MOV ECX,[x] ;
 A: MOV [x],EAX | B: MOV [x],ECX ;
 MOV [y],$9 | MOV ESI,EBX ;
 MFENCE | MFENCE ;
 MOV ECX,[x] | JMP C ;
 MOV [x],$3 | MOV [x],$4 ;
 MOV EDX,[x] | C: MOV EDX,[y] ;
locations [x; 0:EAX; 1:EBX; 1:ESI;]
exists (0:ECX=9 /\\ 1:ECX=7 /\\ 1:EDX=4)
`;

/** A source test whose statements become one instruction or two, with fences and without. */
const BEGINS = `SRC Begins
{ 0:r1=2; }
 P0 | P1 ;
 x := 1 | y := 1 ;
 r0 := swap y r1 | r1 := x ;
 r0 := x | r0 := r1 + r0 ;
 r1 := r0 + r1 | r2 := r1 + r0 ;
 if r0 != 1 goto E | r3 := fetchadd x r3 ;
 z := r1 | r4 := fetchadd y r1 ;
 E: r2 := z | goto F ;
 | z := 5 ;
 | F: r5 := 7 ;
exists (0:r0=1 /\\ 1:r1=1 /\\ 0:r2=3 /\\ 1:r4=1)
`;

/** A list of 4,096 states, of which the last 1,024 make the proposition true. */
function longList() {
  const rows = [..."abcdef"].map((name, at) => ` ${name} := 1 | r${at} := ${name} | r${at} := ${name} ;\n`).join("");
  const all = [1, 2].flatMap((thread) => [..."012345"].map((at) => ` /\\ (${thread}:r${at}=0 \\/ ${thread}:r${at}=1)`)).join("");
  return `SRC Many\n{}\n P0 | P1 | P2 ;\n${rows}exists (1:r0=1 /\\ 1:r1=1${all})\n`;
}

/** Texts that are typed in: faults with their places, a limit, and texts that only lw reads. */
function typedTexts() {
  const five = `SRC Five\n{}\n P0 | P1 ;\n${" x := 1 | x := 2 ;\n".repeat(5)}exists (x=1)\n`;
  const jumps = "SRC Jumps\n{ x=3; 1:r2=0xff; }\n P0 | P1 ;\n A: if r0 = 0 goto B | r0 := fetchadd x r0 ;\n x := r0 | r1 := r0 + r1 ;\n" +
    " B: C: | goto L ;\n r0 := swap x r1 | y := 2 ;\n goto E | L: r2 := y ;\n r3 := r3 + 1 | ;\n E: | ;\n" +
    "locations [x; 0:r0;]\nforall (~(x=1 /\\ y=2) \\/ not (1:r2=0 \\/ true) /\\ [x]=0)\n";
  return [
    ["a fault after letters of two and four bytes", "SRC Mine (* é𝄞 *)\n{}\n P0 ;\n(* é𝄞 *) x = 1 ;\nexists (x=1)\n"],
    ["a number that ends with a letter", "SRC A\n{}\n P0 ;\n x := 12a ;\nexists (x=1)\n"],
    ["a number of base 16 with two zeros", "SRC A\n{}\n P0 ;\n x := 00x1 ;\nexists (x=1)\n"],
    ["numbers of base 16 and of one digit", "SRC A\n{}\n P0 ;\n x := 0x1F ; x := 7 ;\nexists (x=31)\n"],
    ["no test", "no test"],
    ["nothing", ""],
    ["a letter of two bytes in a wrong place", "SRC A\n{}\n P0 ;\n é := 1 ;\nexists (x=1)\n"],
    ["a text that is too long", `(* ${"é".repeat(40000)}`],
    ["a limit", five],
    ["a limit of its compiled program's list without fences", five.replace("x := 2", "r0 := x")],
    ["a proposition that is nested deeply", `SRC A\n{}\n P0 ;\n x := 1 ;\nexists ${"(".repeat(200)}x=1${")".repeat(200)}\n`],
    ["a name of letters that a page has to escape", "X86 <b>&amp;</b>\n{}\n P0 ;\n MOV [x],$1 ;\nexists (x=1)\n"],
    ["labels, jumps and all statements", jumps],
    ["quoted texts and keys", 'X86 Notes "a { b" Key = v { w\n(* {} *)\n{ [x]=1; 0:eax=2 }\n P0 ;\n lock xadd [x],eax ;\n xchg EBX,[x] ;\n' +
      " JE E ;\n ADD EAX,$0x10 ;\n MFENCE ;\n E: ;\n~exists (0:EAX=1 \\/ x=3)\n"],
    ["a statement of each length, which the source run steps through", BEGINS],
    ["a proposition of 256 nodes", `SRC A\n{}\n P0 ;\n x := 1 ;\nexists (~x=1${" \\/ x=1".repeat(127)})\n`],
    ["all instructions, by a walk", WALKED],
    ["a long list", longList()],
    ["no code", "X86 None\n{}\n P0 | P1 ;\nexists (true)\n"],
  ];
}

// Comparisons.

/** Returns the compared parts of an answer: all except the words on a verdict, and on a test that is not read, and the maker of the marks. */
function shown(answer) {
  if (answer.error && UNREAD.test(answer.error)) return { error: "not read" };
  const { report, words, ...others } = answer;
  if (!report) return JSON.parse(JSON.stringify({ words, ...others }));
  const { is_proved: _, ...compared } = report;
  return JSON.parse(JSON.stringify({ report: compared, ...others }));
}

/** Compares all answers on a text. */
async function compareText(page, program, plain, tally, name, text) {
  for (const [question, more] of questionsOn(text)) {
    const fields = { text, ...more };
    const answered = page.questions.answerQuestion(program, question, fields);
    tally.compare(`${name}: ${question} ${JSON.stringify(more)}`, shown(await plain.ask(question, fields)), shown(answered));
    for (const film of Object.values(answered.films ?? {}).filter(Boolean)) compareEffects(tally, name, film);
    if (answered.films) compareCondition(page, tally, name, text, answered);
    for (const kind of ["compiled", "bare"].filter((it) => answered[it])) {
      const list = { text: answered[kind] };
      const answer = page.questions.answerQuestion(program, "states", list);
      tally.compare(`${name}: the states of what is ${kind}`, shown(await plain.ask("states", list)), shown(answer));
    }
  }
  compareReplays(page, program, tally, name, text);
}

/** In a run to a state in which the condition holds, the threads read what an alternative of the condition in words says, in its order. */
function compareCondition(page, tally, name, text, { films, state }) {
  const decoded = text.toString();
  const words = page.condition_words.describeCondition(decoded)?.words;
  const { isAsked } = page.condition_words.parseQuestion(decoded);
  if (!words || !films.x86 || /^\s*\(?\*?.*forall/ms.test(decoded) || !isAsked(state)) return;
  const isRead = ([, thread, listed]) => {
    const expected = [...listed.matchAll(/`(\w+=\d+)`/g)].map(([, it]) => it);
    const read = films.x86.effects.filter((it) => it.thread === Number(thread)).flatMap((it) => /reads `(\w+=\d+)`/.exec(it.words)?.[1] ?? []);
    let at = 0;
    for (const it of read) if (it === expected[at]) at += 1;
    return at === expected.length;
  };
  const reads = /P(\d) reads ((?:`\w+=\d+`(?:, then )?)+)/g;
  const fitting = words.split(", or ").filter((alternative) => [...alternative.matchAll(reads)].every(isRead));
  tally.compare(`${name}: the run to ${state} has the reads of: ${words}`, true, fitting.length > 0);
}

/** Compares the words on the steps of a film with the replays: the effect of each step is known, and it reads the words of the state. */
function compareEffects(tally, name, { events, effects, states }) {
  for (const [at, { thread, words, register, location, entry, cache }] of effects.entries()) {
    const what = `${name}: ${events.slice(0, at + 1).join(" ")} (${words})`;
    const [before, after] = [states[at], states[at + 1]];
    tally.compare(`${what} is known`, [Number(events[at][1]), false], [thread, words.includes("carries out")]);
    const left = register && `${register}=${new Map(after.threads[thread].registers).get(register)}`;
    if (register) tally.compare(`${what}: the register`, true, words.includes(location || entry >= 0 ? register : left));
    const read = entry >= 0 ? before.threads[thread].buffer[entry] : location && [location, new Map(before.content).get(location)];
    if (/memory/.test(words)) compareCache(tally, what, location ?? read?.[0] ?? /`(\w+)=/.exec(words)[1], { before, after, thread, cache }, events[at]);
    if (!read) continue;
    tally.compare(`${what}: what is read`, [true, left], [words.includes(`reads \`${read.join("=")}\``), `${register}=${read[1]}`]);
    const waiting = before.threads.flatMap(({ buffer }, of) => (of === thread ? [] : buffer ?? [])).filter(([it]) => it === read[0]).length;
    tally.compare(`${what}: what waits`, entry >= 0 ? 0 : waiting, words.split(" still waits").length - 1);
  }
}

/** A word that is said to be in memory is memory's own, or in the cache that is named. */
function compareCache(tally, what, location, { before, after, thread, cache }, event) {
  const isDrain = event[0] === "D";
  const { threads, memory, content } = isDrain ? after : before;
  if (cache === undefined) {
    tally.compare(`${what}: memory has it itself`, new Map(content).get(location), new Map(memory).get(location));
    return;
  }
  const letters = threads.map(({ lines }) => new Map(lines).get(location));
  const where = isDrain || letters[thread] !== "I" ? thread : letters.findIndex((it) => it === "M" || it === "O");
  tally.compare(`${what}: the cache that has it`, [where, true], [cache, "MOES".includes(letters[cache])]);
}

/** Every line of a replay is read: what is read, printed again, is what was printed. */
function compareReplays(page, program, tally, name, text) {
  const listed = new Native().run(["schedules"], text);
  if (listed.isFault) return;
  const schedules = listed.out.toString().split("\n").slice(2, -1).filter((_, at) => at % 2).slice(0, 6);
  const compiled = new Native().run(["compile"], text).out;
  for (const [at, schedule] of schedules.entries()) {
    const words = ["replay", schedule.trim(), "--protocol", PROTOCOLS[at % 2]];
    const ran = program.run(words, compiled);
    const printed = page.program.decodeText(ran.out);
    program.workbench.compare?.(words, compiled, ran);
    tally.compare(`${name}: ${words.join(" ")} is read`, printed, asPrinted(page.replays.parseReplayState(printed)));
  }
}

/** A state as `lw replay` prints it. */
function asPrinted({ name, steps, end, threads, memory, content }) {
  const row = (pairs) => pairs.map(([it, word]) => ` ${it}=${word}`).join("");
  const ended = end.kind === "Stopped" ? `Stopped at ${end.at} by ${end.number} ${end.cause}` : end.kind;
  const own = threads.flatMap((it, at) => {
    const more = it.lines ? [`P${at} buffer${row(it.buffer)}`, `P${at} lines${row(it.lines)}`] : [];
    return [`P${at} at ${it.at}${row(it.registers)}`, ...more];
  });
  const rows = [`Test ${name}`, `Steps ${steps}`, `End ${ended}`, ...own, `Memory${row(memory)}`];
  return [...rows, ...(threads[0].lines ? [`Content${row(content)}`] : [])].map((it) => `${it}\n`).join("");
}

/** Compares that texts that are no replays are refused. */
function compareRefused(page, tally) {
  const right = "Test A\nSteps 0\nEnd NotFinal\nP0 at 0 r0=0 r1=0 r2=0 r3=0 r4=0 r5=0\nMemory x=0\n";
  tally.compare("a replay is read", right, asPrinted(page.replays.parseReplayState(right)));
  for (const [from, to] of [["End NotFinal\n", ""], ["End NotFinal", "End Soon"], ["P0 at", "P0 on"], ["Steps 0", "Steps"], ["x=0", "x=y"]]) {
    let outcome = "read";
    try {
      page.replays.parseReplayState(right.replace(from, to));
    } catch (error) {
      outcome = error instanceof page.replays.NoReplay ? "refused" : String(error);
    }
    tally.compare(`a replay with ${JSON.stringify(to)} for ${JSON.stringify(from)}`, "refused", outcome);
  }
}

/** The module is not called with what is no text, or no command. */
function compareArguments(page, tally) {
  const text = new Uint8Array([88]);
  const wrong = [
    [["states"], "X86 A"],
    [["states"], undefined],
    [["states", "P0"], text],
    [["state"], text],
    [[], text],
    [["replay"], text],
    [["replay", text], text],
    [["replay", "P0", "--protocol"], text],
    [["replay", "P0", "--protocol", "msi"], text],
    [["film"], text],
    [["film", "P0", "--protocol", "msi"], text],
    [["--budget", "1"], text],
    [["--budget", "1", "compile"], text],
    [["--budget", "-1", "states"], text],
    [["--budget", "x", "states"], text],
    [["--budget", "18446744073709551616", "states"], text],
  ];
  for (const [words, given] of wrong) {
    let outcome = "called";
    try {
      new page.module.Workbench(null).run(words, given);
    } catch (error) {
      outcome = error.constructor.name;
    }
    tally.compare(`the module by ${JSON.stringify(words)}`, "TypeError", outcome);
  }
  let outcome = null;
  try {
    new page.module.Workbench(null).run(["replay", "", "--protocol", "moesi"], text);
  } catch (error) {
    outcome = error instanceof page.module.Trap;
  }
  tally.compare("a command reaches the module", true, outcome);
}

/** Lists by a search: within the limits they are those by orders, and past them those of the program beyond, with runs that end in them. */
function compareSearches(page, program, tally, texts) {
  if (!fs.existsSync(BEYOND)) return;
  const ask = (question, fields) => page.questions.answerQuestion(program, question, fields);
  for (const [name, text] of texts) {
    const [listed, searched] = [false, true].map((search) => ask("states", { text, search }));
    tally.compare(`${name}: its list by a search`, listed, searched);
  }
  const folder = `${HOME}/examples/beyond`;
  for (const file of fs.readdirSync(folder).filter((it) => it.endsWith(".litmus"))) {
    const text = fs.readFileSync(`${folder}/${file}`, "utf8");
    tally.compare(`${file}: its list is refused by count`, "limit", ask("states", { text }).fault?.kind);
    const { report } = ask("states", { text, search: true });
    const printed = [...report.head, ...report.states.map((it) => it.line), ...report.tail, ""].join("\n");
    tally.compare(`${file}: its report by a search`, new Native().run(["--budget", "1000000", "states"], text).out.toString(), printed);
    for (const { line } of [report.states[0], report.states.at(-1)]) {
      const film = ask("film", { text, state: line, protocol: "mesi", search: true });
      tally.compare(`${file}: a run to ${line}`, line, film.state);
      for (const each of Object.values(film.films).filter(Boolean)) compareEffects(tally, file, each);
    }
  }
}

/** A search that finds too many states says how far it is, and then that it was ended. */
function compareBudgets(page, tally) {
  const [passed, budgets] = [[], []];
  const run = ([, budget]) => {
    budgets.push(Number(budget));
    return { status: 3, isFault: true, out: new TextEncoder().encode(`beyond: budget ${budget}`) };
  };
  const program = new page.program.Program({ run, room: "none" });
  const answer = page.questions.answerQuestion(program, "states", { text: example("SB"), search: true }, (it) => passed.push(it));
  tally.compare("a search that is ended says so", true, answer.error.startsWith("The search found more than 10,000,000 states of the machine"));
  tally.compare("a search has a larger budget each time", [...budgets].sort((a, b) => a - b), budgets);
  tally.compare("a search says how far it is", budgets.length, passed.length);
}

/** Compares the states that two lists have in common, and those that only one has. */
function compareDifferences(page, tally) {
  const report = (lines, more) => ({ states: lines.map((line) => ({ line })), left_out: 0, ...more });
  const both = report(["0:r0=0; x=1;", "0:r0=1; x=1;"]);
  const cases = [
    ["the same", both, both, { both: 2, alone: [[], []] }],
    ["some", both, report(["0:r0=1; x=1;", "0:r0=2; x=1;"]), { both: 1, alone: [["0:r0=0; x=1;"], ["0:r0=2; x=1;"]] }],
    ["the other language, and another sequence", both, report(["x=1; 0:EAX=1;"]), { both: 1, alone: [["0:r0=0; x=1;"], []] }],
    ["words of two digits", report(["x=10;"]), report(["x=1;"]), { both: 0, alone: [["x=10;"], ["x=1;"]] }],
    ["nothing is shown", report([""]), report([""]), { both: 1, alone: [[], []] }],
  ];
  for (const [what, one, other, expected] of cases) {
    tally.compare(`states of two lists: ${what}`, expected, page.differences.compareReports(one, other));
  }
  const refused = [["1:r0=0; x=1;"], ["0:EBX=0; x=1;"], ["0:r0=0; y=1;"], ["0:r0=0;"], [""]];
  for (const lines of refused) {
    tally.compare(`states of ${lines} are not compared`, ["why"], Object.keys(page.differences.compareReports(both, report(lines))));
  }
  const part = report(["0:r0=0; x=1;"], { left_out: 1 });
  tally.compare("states of a list that is not whole are not compared", ["why"], Object.keys(page.differences.compareReports(part, both)));
}

/** Compares the table of a run on this machine: the states that are not listed come first, and then those that were seen most often. */
function compareSeenHere(page, tally) {
  const seen = [["a", 3, true], ["b", 1200, true], ["c", 1, false]].map(([state, count, listed]) => ({ state, count, listed }));
  const answer = { runs: 1204, seconds: 2.04, processors: 1, listed: 3, seen, not_seen: ["d"], list: "lw, proved complete" };
  const rows = [["c", "1, and it is not listed"], ["b", "1,200"], ["a", "3"], ["d", "not seen"]];
  tally.compare("the rows of a run on this machine", rows, page.seen_here.listRows(answer));
  const words = "1,204 runs in 2.0 seconds on 1 processor: seen here 2 of 3 listed states (the list by lw, proved complete).";
  tally.compare("the sentence on a run on this machine", words, page.seen_here.describeMeasurement(answer));
}

/** A text that is shown with its cells one below the other has all that it had, except blanks. */
function compareAligned(page, tally, texts) {
  const source = "SRC A\n{ x=1; }\n P0 | P1 ;\n x := 1 | y := 1 ;\n | L: ;\n(* a | b ; *)\nexists (x=1)\n";
  const shown = "SRC A\n{ x=1; }\n P0     | P1     ;\n x := 1 | y := 1 ;\n        | L:     ;\n(* a | b ; *)\nexists (x=1)\n";
  tally.compare("cells one below the other", shown, page.aligned.alignCells(source));
  const bare = (text) => text.replaceAll(" ", "");
  for (const [name, text] of texts) tally.compare(`${name}: cells one below the other`, bare(text), bare(page.aligned.alignCells(text)));
}

/** The run that an example has of its own is shown to its end, in a state that is listed; of a source test also that of its compiled program. */
function compareOwnRuns(page, program, tally, texts) {
  for (const [name, text] of texts) {
    const own = /A (?:telling schedule|run): ([\w :]+)/.exec(text.replace(/\s+/g, " "))[1].trim();
    const ask = (question, more) => page.questions.answerQuestion(program, question, { text, ...more });
    const { state, schedule, films, isOwn } = ask("film", { own, state: null, protocol: "mesi" });
    const listed = new Native().run(["states"], text).out.toString().split("\n");
    tally.compare(`${name}: its own run ends in a state that is listed`, [true, true], [isOwn, listed.includes(state)]);
    const followed = films.source ? films.source.events.join(" ") : schedule.slice(0, own.length);
    tally.compare(`${name}: its own run follows its schedule`, own, followed);
    for (const film of Object.values(films)) compareEffects(tally, name, film);
    const other = listed.find((it) => /=\d+;/.test(it) && it !== state);
    if (!other) continue;
    const answer = ask("film", { own, state: other, protocol: "mesi" });
    tally.compare(`${name}: a run to another state is that which is listed`, [other, undefined], [answer.state, answer.isOwn]);
  }
}

/** A run by interleaving to a state, if there is one, ends there, and each of its stores drains at once; of other states it is the one that is listed. */
function compareTurns(page, program, tally, texts) {
  for (const [name, text] of texts.filter(([, it]) => /^X86/m.test(it))) {
    const ask = (question, more) => page.questions.answerQuestion(program, question, { text, ...more });
    const [{ report }, { interleaved }] = [ask("states", {}), ask("interleaved", {})];
    for (const { line } of report?.states.slice(0, 4) ?? []) {
      const { state, isByTurns = false, films } = ask("film", { state: line, protocol: "mesi", isByTurns: true });
      const waiting = films.x86.states.map(({ threads }) => threads.reduce((sum, it) => sum + it.buffer.length, 0));
      const isTurns = (interleaved ?? []).includes(line);
      tally.compare(`${name}: a run by interleaving to ${line}`, [line, isTurns, isTurns], [state, isByTurns, isByTurns && Math.max(...waiting) < 2]);
    }
  }
}

/** A fence that is put into the text of a test and taken out again leaves the text as it was; and each fence of the text can be taken out. */
function compareFenceEdits(page, tally, texts) {
  const { insertFencesInText, removeFenceFromText } = page.fence_edit;
  for (const [name, text] of texts.filter(([, it]) => it.startsWith("X86"))) {
    const cells = page.aligned.alignCells(text);
    const threads = /^ P0.*$/m.exec(cells)[0].split("|").length;
    for (let thread = 0; thread < threads; thread += 1) {
      const fenced = insertFencesInText(cells, [[thread, 1]]);
      if (fenced === null) continue;
      tally.compare(`${name}: a fence in P${thread} comes and goes`, cells, removeFenceFromText(fenced, [thread, 1]));
    }
  }
  const code = " MOV [x],$1 | MOV EAX,[x] ;\n MOV [y],$1 | L: JE L2    ;\n  | L2: MOV EBX,[y] ;\n";
  const text = `X86 A\n(* P0 (* | *) ; *)\n{}\n P0         | P1          ;\n${code}exists (x=1)\n`;
  const rows = [[[1, 1]], [[0, 1], [1, 1]], [[1, 2]]];
  const expected = [
    "            | L: MFENCE   ;\n MOV [y],$1 | JE L2       ;\n", " MFENCE     | L: MFENCE   ;\n MOV [y],$1 | JE L2       ;\n",
    "  | L2: MFENCE      ;\n  | MOV EBX,[y]     ;\n",
  ];
  for (const [at, places] of rows.entries()) {
    tally.compare(`fences at ${JSON.stringify(places)}`, true, insertFencesInText(text, places)?.includes(expected[at]) ?? null);
  }
  tally.compare("no fence at a place that is none", null, insertFencesInText(text, [[0, 9]]));
}

/** Compares the examples that words find: the first of them, and at most how many; and the words that are near to others. */
function compareFinding(page, tally, families) {
  const namesFor = (text) => page.finding.findTests(families, text, false).map((it) => it.name);
  for (const [text, first] of FOUND) {
    tally.compare(`what is found by ${text}`, first, namesFor(text).slice(0, first.length));
  }
  tally.compare("MP is in no jump", [], namesFor("MP").filter((it) => !it.startsWith("MP")));
  tally.compare("nothing is found by a word that is none", [], namesFor("zebra"));
  tally.compare("an exact name first", ["MP", "MP-x86"], page.finding.findTests(families, "mp", false, true).map((it) => it.name).slice(0, 2));
  const first = (text) => page.finding.findTests(families, text, false, true)[0]?.name;
  const fullNames = {
    "load buffering": "LB-x86", "Store buffer": "SB-x86", "message passing": "MP-x86", "independent reads of independent writes": "IRIW-x86", stale: "MP-x86",
    "load buff": "LB-x86", "message-passing": "MP-x86", "double-checked": "DoubleChecked", "double checked locking": "DoubleChecked", "dekker's algorithm": "Dekker-x86",
    "peterson lock": "Peterson-x86", dekker: "Dekker", "test-and-set": "SpinLock-x86", "false sharing": "Sharing-x86",
  };
  tally.compare("full names, and what readers call them", Object.values(fullNames), Object.keys(fullNames).map(first));
  const notes = (text) => page.finding.listNotes(text).length;
  tally.compare("notes on what the format has not", [1, 1, 1, 1, 1, 1, 1, 1, 1, 1, 0],
    ["CAS", "deadlock", "volatile flag", "nontemporal", "herd", "c11", "AT&T", "ABA", "shared_ptr", "litmus", "MP"].map(notes));
  const near = ["MFENC", "JZ", "MVO", "INC", "MFENCE"].map((it) => page.nearest.findNearest(it, ["MOV", "JE", "JNE", "MFENCE", "ADD"]));
  tally.compare("the nearest words", ["MFENCE", "JE", "MOV", null, null], near);
}

const FOUND = [
  ["MP", ["MP", "MP-x86"]], ["sb-x86", ["SB-x86"]], ["mutex", ["SpinLock", "SpinLock-x86", "Peterson", "Peterson-x86"]], ["CAS", ["TryLock", "Consensus"]], ["mpsc", ["ProducerQueue"]], ["spsc", ["SpscRing"]], ["lock", ["TryLock", "SpinLock"]],
  ["spin", ["SpinLock", "SpinLock-x86"]], ["fence", ["HazardPointer+fences-x86", "SB+own+mfences-x86"]], ["queue", ["QueueLock", "ProducerQueue"]],
  ["jump", ["SB+join", "SB+join-x86"]], ["futex", ["Wakeup", "Wakeup-x86"]], ["ABA", ["HazardPointer", "HazardPointer-x86"]], ["refcount", ["Counter", "Counter-x86"]],
  ["shared_ptr", ["Counter", "Counter-x86"]], ["channel", ["SpscRing", "SpscRing-x86"]], ["once", ["DoubleChecked"]], ["publication early x86", ["Publication+early-x86"]],
];

/** Compares the page's words on slips in a test that lw takes. */
function compareSlips(page, tally) {
  const text = "X86 A\n(* { flga } *)\n{ k=2; }\n P0 | P1 ;\n MOV [flag],$1 | MOV EAX,[flga] ;\n | MOV ECX,[k] ;\nexists (1:EBX=1 /\\ z=0)\n";
  tally.compare("slips", [
    "The question names `1:EBX`, but nothing in P1 writes EBX: it is 0 in every run.",
    "The question names `z`, but no thread writes z: it is 0 in every run.",
    "A thread loads `flga`, but no thread writes flga: it is 0 in every run. Did you mean `flag`?",
  ].sort(), page.slips.findSlips(text).map((it) => it.words).sort());
  const twice = "X86 A\n{}\n P0 | P1 ;\n MOV [y],$1 | MOV EAX,[y] ;\n | MOV EBX,[y] ;\nexists (1:EAX=0 /\\ 1:EAX=1)\n";
  const wordsOfTwice = page.slips.findSlips(twice).map((it) => it.words);
  tally.compare("a site with two words", ["The question asks for two words of `1:EAX` at once: no state has both."], wordsOfTwice);
  const address = "X86 A\n{}\n P0 | P1 ;\n MOV [rbx],$1 | MOV EAX,[rbx] ;\nexists (0:EAX=1)\n";
  tally.compare("a location with a register's name, and another thread's register", [
    "`[rbx]` is read as a location of the name rbx: lw has no addresses in registers.",
    "The question names `0:EAX`, but nothing in P0 writes EAX: it is 0 in every run. Did you mean `1:EAX`?",
  ], page.slips.findSlips(address).map((it) => it.words));
  const other = "X86 A\n{}\n P0 | P1 ;\n MOV [rdi],$1 | MOV EAX,[rsi] ;\nexists (1:eax=0 /\\ 0:ebx=0)\n";
  const slips = page.slips.findSlips(other);
  tally.compare("two registers as addresses are not taken for one", [null], slips.filter(({ words }) => words.startsWith("A thread loads")).map((it) => it.change));
  const small = "X86 A\n{}\n P0 | P1 ;\n MOV [x],$1 | MOV EAX,[x] ;\nexists (1:ebx=0)\n";
  const { change } = page.slips.findSlips(small)[0];
  const eight = page.slips.findSlips(small.replace("$1", "$010").replace("ebx", "eax"));
  tally.compare("a number that begins with 0", ["`010` is 10: lw has no base 8."], eight.map((it) => it.words));
  tally.compare("a register in small letters is changed", small.replace("1:ebx", "1:EAX"), page.slips.applyChange(small, change));
  tally.compare("no slips", [], page.slips.findSlips(example("SB-x86")));
}

/** Compares the page's words on faults of source tests, and the texts that it proposes. */
function compareSourceHints(page, program, tally) {
  for (const [rows, words, proposed] of SOURCE_HINTS) {
    const text = `SRC A\n{}\n P0 | P1 ;\n ${rows} ;\nexists (1:r0=0)\n`;
    const { fault } = page.questions.answerQuestion(program, "states", { text });
    const { words: found, change } = page.faults.explainFault(fault, text);
    tally.compare(`the words on ${rows}`, [true, proposed], [found.includes(words), change?.text]);
  }
}

const SOURCE_HINTS = [
  ["x = 1 | r0 = x", "A statement sets a location or a register by `:=`.", ":= 1 | r0 :="],
  ["x := 1 | fence ;\n mfence() | r0 := x", "A source test has no fences: the compiler adds them.", "      ;\n         "],
  ["x := 1 | r0 := cas x 0 1", "lw has no compare-and-swap", undefined],
  ["[x] = 1 | r0 := [x]", "a location has no brackets", "x := 1 | r0 := x"],
  ["x := 1 | r0 := [r1]", "does not fit here", undefined],
  ["x := 1 | if (r0 == 1) goto E ;\n | E:", "A branch is `if r0 = 1 goto L`.", "if r0 = 1 goto E"],
  ["x = 1; | r0 = x; ", "Only a row's end has a `;`.", "P0 | P1 ;\n x = 1 | r0 = x  ;\nexists (1:r0=0)\n"],
  ["0:r1 := x | 1:r0 := x", "In code a register has no thread before it", "r1 := x | r0"],
  ["x := 1 | x := 0:r0", "`0:r0` is a register of P0", undefined],
  ["x++ | r0 := x", "lw does this by `r1 := x`, then `r1 := r1 + 1`, then `x := r1`. Another thread may write between them: `fetchadd` does it in one step.",
    "r1 := x | r0 := x ;\n r1 := r1 + 1 |         ;\n x := r1 |         ;"],
  ["r0 += x | r0 := x", "lw does this by `r1 := x`, then `r0 := r1 + r0`.", "r1 := x | r0 := x ;\n r0 := r1 + r0 |         ;"],
  ["x := y - 1 | r0 := x", "lw does this by `r1 := y`, then `r1 := r1 + 4294967295`, then `x := r1`.",
    "r1 := y | r0 := x ;\n r1 := r1 + 4294967295 |         ;\n x := r1    |         ;"],
  ["x := y | r0 := x", "lw does this by `r1 := y`, then `x := r1`.", "r1 := y | r0 := x ;\n x := r1 |         ;"],
  ["x := EAX | r0 := x", "`EAX` is no register, and one is needed here: `r0` to `r5`.", "r0"],
  ["x := 1 | r0 := r1 - 1", "lw has no negative numbers", "+ 4294967295"],
  ["x := r1 - r2 | r0 := x", "`-` is not expected here.", undefined],
  ["x := r6 | if r6 = 1 goto L ;\n r7 := x | L:", "Registers are `r0` to `r5`.", "r0 | if r1 = 1 goto L ;\n r1"],
  ["x := 1 r0 := x", "Cells have a `|` between them.", " x := 1 | r0 := x ;\nexists (1:r0=0)\n"],
];

/** Compares the page's words on faults, each made by a change of a text; and the texts that it proposes in place of a part. */
function compareHints(page, program, tally) {
  for (const [part, wrong, words, line, proposed, changed] of HINTS) {
    const text = RIGHT.replace(part, () => wrong);
    const { fault } = page.questions.answerQuestion(program, "states", { text });
    const hint = page.faults.explainFault(fault, text);
    const row = page.faults.explainMissingRowEnd(fault, text).match(/^Line (\d+) has no `;`/)?.[1];
    const expected = [true, line, proposed, changed ?? hint.at?.row];
    tally.compare(`the words on ${wrong}`, expected, [`${hint.words} ${hint.more ?? ""}`.includes(words), row && Number(row), hint.change?.text, hint.at?.row]);
  }
}

/** Compares the page's words on whole texts, and the texts that their buttons make; and the time that hints on long texts take. */
function compareMendedTexts(page, program, tally) {
  const findFault = (text) => page.questions.answerQuestion(program, "states", { text }).fault;
  for (const [text, words, mended] of MENDED_TEXTS) {
    const { words: found, change } = page.faults.explainFault(findFault(text), text);
    const made = change && text.slice(0, change.begin) + change.text + text.slice(change.end);
    tally.compare(`the text that is made of ${JSON.stringify(text)}`, [true, mended], [found.includes(words), made]);
  }
  for (const [text, place] of LONG_PLACES.flatMap((it) => [...it.matchAll(/@/g)].map(({ index }) => [it, index]))) {
    for (const long of LONG) {
      const asked = (text.slice(0, place) + long + text.slice(place)).replaceAll("@", "");
      const fault = findFault(asked);
      if (!fault) continue;
      const time = measure(() => {
        page.faults.explainFault(fault, asked);
        page.faults.explainMissingRowEnd(fault, asked);
      });
      tally.compare(`a hint takes no long time: ${JSON.stringify([text.slice(place - 9, place + 9), long.slice(0, 9)])}`, true, time < SLOWEST || time);
    }
  }
}

// Rows of a test, and what buttons make of its parts that are missing or written in another way.
const ROWS = " P0 | P1 ;\n MOV [x],$1 | MOV [y],$1 ;\n MOV EAX,[y] | MOV EAX,[x] ;\n";
const ASKED = "exists (0:EAX=0 /\\ 1:EAX=0)\n";
const MENDED_TEXTS = [
  [`X86 A\n{}\n${ROWS}`, "The test has no question at its end. The one of the button is a guess: change it to yours.", `X86 A\n{}\n${ROWS}${ASKED}`],
  ["SRC A\n{}\n P0 | P1 ;\n x = 1 | x = 2 ;\n", "The test has no question at its end.", "SRC A\n{}\n P0 | P1 ;\n x := 1 | x := 2 ;\nlocations [x;]\nexists (true)\n"],
  [`X86 A\n{}\n${ROWS}(0:EAX=0 /\\ 1:EAX=0)\n`, "A question begins with `exists`, `~exists` or `forall`. Did you mean `exists`?", `X86 A\n{}\n${ROWS}${ASKED}`],
  [`X86 A\n{}\n${ROWS}EXISTS (0:EAX=0, 1:EAX=0)\n`, "The button changes `EXISTS` to `exists` and `,` to `/\\`.", `X86 A\n{}\n${ROWS}${ASKED}`],
  [`X86 A\n{}\n${ROWS}locations [x, y]\n0:eax=0 and P1:eax=0\n`, "The list of locations has a `;` after each.", `X86 A\n{}\n${ROWS}locations [x; y]\nexists 0:eax=0 /\\ 1:eax=0\n`],
  [`X86 A\n{}\n${ROWS}${ASKED.trim()};\n`, "The question is the end of a test.", `X86 A\n{}\n${ROWS}${ASKED}`],
  [`X86 A\n{ x=1, y=2 }\n${ROWS}${ASKED}`, "Initial values have a `;` between them", `X86 A\n{ x=1; y=2; }\n${ROWS}${ASKED}`],
  [`X86 A\n{ x := 1 y: 0x2 }\n${ROWS}${ASKED}`, "Initial values have a `;` between them", `X86 A\n{ x=1; y=0x2; }\n${ROWS}${ASKED}`],
  [`X86 A\n{ x = y = 3 }\n${ROWS}${ASKED}`, "Initial values have a `;` between them", `X86 A\n{ x=3; y=3; }\n${ROWS}${ASKED}`],
  [`X86 A\nx=1; y=2;\n${ROWS}${ASKED}`, "Initial values are in braces, each with a `;` after it.", `X86 A\n{ x=1; y=2; }\n${ROWS}${ASKED}`],
  [`X86 Store Buffering\n{}\n${ROWS}${ASKED}`, "The name of a test is one word. Did you mean `Store-Buffering`?", `X86 Store-Buffering\n{}\n${ROWS}${ASKED}`],
  [`X86 A\n{}\n${ROWS.replace("P0 | P1", "T0 | T1")}${ASKED}`, "The threads are `P0`, `P1` and so on.", `X86 A\n{}\n${ROWS}${ASKED}`],
  [`X86 A\n{}\n${ROWS.replace("P0 | P1 ;", "Thread 1 | Thread 2")}exists (1:EAX=0 /\\ 2:EAX=0)\n`, "The first one has the number 0.", `X86 A\n{}\n${ROWS}${ASKED}`],
  [`X86 A\n{}\n${ROWS}exists (0:EAX=0 \u2227 1:EAX=0)\n`, "The text has signs of print: lw's sign for `\u2227` is `/\\`.", `X86 A\n{}\n${ROWS}${ASKED}`],
  [`\ufeffX86\u00a0A\n{}\n${ROWS}${ASKED}`, "The text has blanks or marks of a word processor.", `X86 A\n{}\n${ROWS}${ASKED}`],
  [`\`\`\`asm\nX86 A\n{}\n${ROWS}${ASKED}\`\`\`\n`, "Lines around the test are no part of it.", `X86 A\n{}\n${ROWS}${ASKED}`],
  [`> X86 A\n> {}\n${ROWS.replace(/^/gm, "> ").slice(0, -2)}> ${ASKED}`, "Lines around the test are no part of it.", `X86 A\n{}\n${ROWS}${ASKED}`],
  ["X86 A\n{ x=0 y=0 }\n P0 | P1 ;\n MOVQ [x],$1 | MOV [y],$1 ;\n MOV R8D,[y] | MOV EAX,[x] ;\nexists (0:R8D=0 and 1:EAX=0)\n", "Registers are `EAX` to `EDX`",
    `X86 A\n{ x=0; y=0; }\n${ROWS}${ASKED}`],
  ["X86 A\n{}\n P0 ;\n XCHG [x],1 ;\nexists (x=1)\n", "lw does this by `MOV EAX,1`, then `XCHG [x],EAX`.", "X86 A\n{}\n P0 ;\n MOV EAX,1 ;\n XCHG [x],EAX ;\nexists (x=1)\n"],
  ["SRC A\n{}\n P0 ;\n r0 := fetchadd x 2 ;\nexists (x=2)\n", "lw does this by `r1 := 2`, then `r0 := fetchadd x r1`.",
    "SRC A\n{}\n P0 ;\n r1 := 2 ;\n r0 := fetchadd x r1 ;\nexists (x=2)\n"],
  ["X86 A\n{}\n P0 ;\n mov [x],1\nexists x=1 & x=1\n", "This row has no `;` at its end.", "X86 A\n{}\n P0 ;\n mov [x],1 ;\nexists x=1 /\\ x=1\n"],
  ["P0: x=1; r1=y\nP1: y=1; r2=x\n", "This is pseudo code: each assignment is one load or one store. The question is a guess",
    `X86 Mine\n(* 0:EBX is r1, 1:ECX is r2 *)\n{}\n${ROWS.replace(/EAX(?=.*\|)/, "EBX").replace("| MOV EAX", "| MOV ECX").replace("P0 | P1 ;", "P0          | P1          ;").replace("$1 |", "$1  |").replace("$1 ;", "$1  ;")}exists (0:EBX=0 /\\ 1:ECX=0)\n`],
  ["Initially x = y = 2\n\nThread 1      Thread 2\nx = 1         fence\ny = 1         a = x\n\nexists (a = 2)\n", "`a` is `r0` (`EAX`) of P1.",
    "X86 Mine\n(* 1:EAX is a *)\n{ x=2; y=2; }\n P0         | P1          ;\n MOV [x],$1 | MFENCE      ;\n MOV [y],$1 | MOV EAX,[x] ;\nexists (1:EAX = 2)\n"],
  ["x = 1 || x = 2\n", "This is pseudo code", "X86 Mine\n{}\n P0         | P1         ;\n MOV [x],$1 | MOV [x],$2 ;\nlocations [x;]\nexists (true)\n"],
  ["SRC MP\n{}\nP0:\n x := 1\nP1:\n r0 := x\nexists (1:r0=1)\n", "This is pseudo code", "SRC MP\n{}\n P0     | P1      ;\n x := 1 | r0 := x ;\nexists (1:r0=1)\n"],
  ["P0: x = y\nP1: y = x\n", "This is pseudo code: each access of a name",
    "X86 Mine\n{ x=0; y=0; }\n P0          | P1          ;\n MOV EAX,[y] | MOV EAX,[x] ;\n MOV [x],EAX | MOV [y],EAX ;\nlocations [x; y]\nexists (true)\n"],
  ["CPU 1    CPU 2\n======== ========\nx = 1;   r1 = y;\n", "This is pseudo code",
    "X86 Mine\n(* 1:EBX is r1 *)\n{}\n P0         | P1          ;\n MOV [x],$1 | MOV EBX,[y] ;\nexists (1:EBX=0)\n"],
  ["initially x = y = 0\nThread 1:\n x := 1\n mfence\n r1 := y\nThread 2:\n y := 1\n mfence\n r2 := x\nexists r1 = 0 and r2 = 0\n", "This is pseudo code",
    "X86 Mine\n(* 0:EBX is r1, 1:ECX is r2 *)\n{ x=0; y=0; }\n P0          | P1          ;\n MOV [x],$1  | MOV [y],$1  ;\n MFENCE      | MFENCE      ;\n MOV EBX,[y] | MOV ECX,[x] ;\nexists 0:EBX = 0 /\\ 1:ECX = 0\n"],
  ["P0 | P1\nx = 1 | r1 = y\ny = 1 | r2 = x\n", "This is pseudo code",
    "X86 Mine\n(* 1:EBX is r1, 1:ECX is r2 *)\n{}\n P0         | P1          ;\n MOV [x],$1 | MOV EBX,[y] ;\n MOV [y],$1 | MOV ECX,[x] ;\nexists (~1:EBX=0 /\\ 1:ECX=0)\n"],
  ["X86 A\n{}\n P0 ;\n MOV [y],XMM0 ;\nexists (y=1)\n", "`XMM0` is no register of lw", null],
  ["X86 A\n{}\n P0 ;\n MOV [y],true ;\nexists (y=1)\n", "`true` is no register", null],
  ["SRC A\n{}\n P0 ;\n lock(m) ;\nexists (m=1)\n", "A statement is `x := 1`", null],
  ["X86 A\n{}\n P0 ;\n MOV [x],$1 ;\nfilter (x=1)\nexists (x=1)\n", "lw has no `filter`: its condition is a part of the question", null],
];
// Texts with the places at which something long is put in, what this is, and how many milliseconds a hint may take.
const LONG_PLACES = [
  "@X86@ A@\n@{@ x=0@;@ y=0 }@\n P0 @|@ P1 @;\n MOV@Q [x],@$1 @|@ MOV [y],$1@ ;@\n MOV EAX,[y]@ | MOV EAX,@[x] ;\n@locations @[x;@ y;]\n@exists@ (0@:EAX @!= @0 /\\ 1:EAX=0)@\n",
  "SRC A\n{}\n P0 P1 ;\n x @=@ 1 | y = 1 ;\n r0@ = y | r0 :=@ x + 1\nexists @(0:r0=0 @&&@ 1:r0=0)\n",
  "@foo:@\n@  mov@ DWORD PTR x[@rip], 1@\n  mov eax, DWORD PTR y[rip]\n@  ret\nbar():\n  movl @$1, y(%rip)\n  ret\n@",
];
const LONG = [" ".repeat(40000), "a".repeat(40000), "\n".repeat(40000), ";".repeat(40000), "mov eax, 1\n".repeat(4000), "| ".repeat(20000)];

/** Returns the indices of the first fault of a text and of its further faults, as the page names them, and the text that it proposes, or null. */
async function findAllFaults(page, program, text) {
  const findFault = async (asked) => page.questions.answerQuestion(program, "compile", { text: asked }).fault ?? null;
  const fault = await findFault(text);
  const hint = page.faults.explainFault(fault, text);
  const { faults, change } = await page.further_faults.findFurtherFaults({ fault, hint }, text, findFault);
  const places = [hint.at ?? fault, ...faults.map((it) => it.hint.at)];
  const lines = text.split("\n");
  const findIndex = ({ row, column }) => [...lines.slice(0, row - 1), [...lines[row - 1]].slice(0, column - 1).join("")].join("\n").length;
  return { indices: places.map((it) => it.index), mended: change?.text ?? null, arePlaces: places.every((it) => findIndex(it) === it.index) };
}

/** Compares the faults that the page finds in typed texts, and in examples with a spare mark in three rows, or a misspelt instruction in three. */
async function compareFurtherFaults(page, program, tally, texts) {
  const edit = (edits) => edits.reduce((whole, [part, other]) => whole.replace(part, () => other), RIGHT);
  for (const [edits, marks, others] of FURTHER_FAULTS) {
    const text = edit(edits);
    const { indices, mended, arePlaces } = await findAllFaults(page, program, text);
    const expected = [marks.map((mark) => text.lastIndexOf(mark)), others && edit(others), true];
    tally.compare(`the faults of ${JSON.stringify(edits)}`, expected, [indices, mended, arePlaces]);
  }
  for (const [name, text] of texts) {
    for (const spoil of [addSpareMarks, misspellInstructions]) {
      const { spoilt, indices: expected } = spoil(text);
      if (expected.length < 3) continue;
      const { indices, mended } = await findAllFaults(page, program, spoilt);
      const ascending = indices.sort((one, other) => one - other);
      tally.compare(`${name}: three faults by ${spoil.name}`, [expected, spoil === addSpareMarks ? null : text], [ascending, mended]);
    }
  }
}

/** Returns a text of which the first three lines that a pattern matches have a part, the pattern's group, replaced; and where that differs. */
function spoilLines(text, pattern, change) {
  const begin = text.search(/^ P0\b/m);
  let [spoilt, indices] = [text.slice(0, begin), []];
  for (const line of text.slice(begin).split(/(?<=\n)/)) {
    const front = indices.length < 3 && !/^ P0\b|\(\*|exists|forall|locations/.test(line) ? pattern.exec(line)?.[1] : undefined;
    if (front !== undefined) indices.push(spoilt.length + front.length);
    spoilt += front === undefined ? line : front + change(line.slice(front.length));
  }
  return { spoilt, indices };
}

/** Returns a text with a spare `)` at the ends of the last cells of three rows; and where these marks are. */
function addSpareMarks(text) {
  return spoilLines(text, /^(.*[\w\]] *);$/m, (rest) => `) ${rest}`);
}

/** Returns a text with `MVO` in place of the first `MOV` of three rows; and where these words are. */
function misspellInstructions(text) {
  return spoilLines(text, /^(.*?)\bMOV\b/, (rest) => rest.replace("MOV", "MVO"));
}

const NO_COMMA = "The operands of an instruction have a comma between them.";
const NO_CONSTANT = "A constant is a whole number from 0 to 4294967295.";
const NO_NEGATIVE = "lw has no negative numbers: in a word of 32 bits -1 is 4294967295.";
const NO_END_OF_ROW = "This row has no `;` at its end.";
// A cell of the other thread, as it is in rows that are put in.
const OTHER = "            |";
const NO_END = "The initial values lack a `}` at their end.";
const ALL_ROWS = "MOV [x],$1 | MOV EAX,[x] ;\n MFENCE | XCHG [y],EAX ;";
const RIGHT = "X86 A\n{ x=0 }\n P0 | P1 ;\n MOV [x],$1 | MOV EAX,[x] ;\n MFENCE | XCHG [y],EAX ;\nexists (x=1 /\\ 1:EAX=0)\n";
const ALIGNED = " P0         | P1           ;\n MOV [x],$1 | MOV EAX,[x]  ;\n MFENCE     | XCHG [y],EAX ;\n";
const LAST = "exists (x=1 /\\ 1:EAX=0)\n";
const COMMENTS = "Comments are `(*` and `*)`.";
const NO_TYPES = "The initial values have no types.";
const ATT_ORDER = "This is AT&T's order, with the destination last: lw has the destination first.";
// A part of a text, what is there in place of it, some of the page's words, the line of a row that lacks its end, the proposed text, and the line that is
// to be changed, if it is not that of the fault.
const HINTS = [
  ["[y],EAX ;", "[y],EAX", NO_END_OF_ROW, 5, " ;"],
  ["MFENCE", "SFENCE", "SFENCE orders nothing that x86-TSO does not order already", undefined, "      "],
  ["MFENCE", "L: LFENCE", "LFENCE orders nothing that x86-TSO does not order already", undefined, undefined],
  ["MOV EAX,[x]", "CAS [x],EAX", "lw has no compare-and-swap", undefined, undefined],
  ["MOV EAX,[x]", "XADD [x],EAX", "Another thread may write between them: `LOCK XADD` does it in one step.", undefined,
    `MOV EBX,[x] ;\n${OTHER} ADD EAX,EBX  ;\n${OTHER} MOV [x],EAX  ;\n${OTHER} MOV EAX,EBX  ;`],
  ["MOV EAX,[x]", "XADD EAX,[x]", "Write `LOCK XADD`.", undefined, undefined],
  ["MOV EAX,[x] ;\n MFENCE |", "INC [x] ;\n  | ;\n MFENCE |", "lw does this by `MOV EBX,[x]`", undefined,
    `MOV EBX,[x] ;\n  | ADD EBX,$1 ;\n${OTHER} MOV [x],EBX ;`],
  ["[y],EAX ;", "[y],EAX (* ; *)\n\n(* a; b\n *)", NO_END_OF_ROW, 5, " ;"],
  ["[y],EAX ;", "[y],EAX (* a (* b; *) c *)", NO_END_OF_ROW, 5, " ;"],
  ["EAX=0)\n", "EAX=0 (* a (* b *) c) *)\n", "The question lacks a `)` at its end.", undefined, ")", 6],
  ["[y],EAX ;", "[y],EAX\n locations [x;]\n", NO_END_OF_ROW, 5, " ;"],
  ["[y],EAX ;\n", "[y],EAX ", NO_END_OF_ROW, 5, " ;"],
  ["[x] ;", "[x]", NO_END_OF_ROW, 4, " ;"],
  ["P1 ;", "P1", NO_END_OF_ROW, 3, " ;"],
  ["[x] ;\n MFENCE | XCHG [y],EAX ;", "[x]\n MFENCE | XCHG [y],EAX", "This row and another one have no `;`", 5, " ;\n MFENCE | XCHG [y],EAX ;"],
  ["[x] ;", "[y] [x]", "This row has too few or too many cells", 4, undefined],
  ["(x=1 /\\ 1:EAX=0)", "(x=1 /\\\n 2:EAX=0)", "There is no thread 2", undefined, undefined],
  ["{ x=0 }", "{ x=0", NO_END, undefined, undefined, 2],
  ["{ x=0 }", "{x=1;", NO_END, undefined, undefined, 2],
  ["{ x=0 }", "{(* } *)", NO_END, undefined, undefined, 2],
  ["exists", "exist", "lw has no question of the name `exist`.", undefined, "exists", 6],
  ["EAX=0)\n", "EAX=0\n\n", "The question lacks a `)` at its end.", undefined, ")", 6],
  ["/\\ 1:EAX=0)", "", "The question lacks a `)` at its end.", undefined, ")", 6],
  ["exists", "locations [x;\nexists", "The list of locations lacks a `]` at its end.", undefined, "]", 6],
  ["P0 | P1", "p0 | p1", "The threads are `P0`, `P1` and so on.", undefined, "P0 | P1"],
  ["P1 ;", "p1 ;", "The threads are `P0`, `P1` and so on.", undefined, "P0 | P1"],
  ["MOV EAX,[x]", "INC [y]", "lw does this by `MOV EBX,[y]`, then `ADD EBX,$1`", undefined, `MOV EBX,[y] ;\n${OTHER} ADD EBX,$1 ;\n${OTHER} MOV [y],EBX ;`],
  ["MOV EAX,[x]", "L: ADD [y],1", "lw does this by `MOV EBX,[y]`", undefined, `MOV EBX,[y] ;\n${OTHER} ADD EBX,1    ;\n${OTHER} MOV [y],EBX  ;`],
  ["MOV EAX,[x]", "LOCK INC [y]", "lw does this by `MOV EBX,$1`", undefined, `MOV EBX,$1 ;\n${OTHER} LOCK XADD [y],EBX ;`],
  ["MOV EAX,[x]", "LOCK XADD [y],$2", "lw does this by `MOV EBX,$2`", undefined, `MOV EBX,$2 ;\n${OTHER} LOCK XADD [y],EBX ;`],
  ["MOV EAX,[x]", "DEC EAX", "lw does this by `ADD EAX,$4294967295`.", undefined, "ADD EAX,$4294967295 ;"],
  ["MOV EAX,[x]", "CMP [x],EAX", "lw does this by `MOV EBX,[x]`", undefined, `MOV EBX,[x] ;\n${OTHER} CMP EBX,EAX ;`],
  ["MOV [x],$1", "MOV $1,x", "lw does this by `MOV [x],$1`.", undefined, "MOV [x],$1 | MOV EAX,[x] ;"],
  ["MOV [x],$1", "MOV x,$1", "Did you mean `[x]`?", undefined, "[x]"],
  ["MOV EAX,[x]", "LOCK CMPXCHG [x],EBX", "lw has no compare-and-swap", undefined, undefined],
  ["MOV EAX,[x]", "AND EAX,$1", "lw has no `AND`, and the page knows nothing that does the same here.", undefined, undefined],
  [ALL_ROWS, "MOV $1,[x] | MOV $1,[y] ;\n MOV [y],EAX | MOV [x],EAX ;", ATT_ORDER, undefined, "MOV [x],$1 | MOV [y],$1 ;\n MOV EAX,[y] | MOV EAX,[x]"],
  [ALL_ROWS, "movl $1,(x) | L: movl (x),%eax ;\n mfence | xchg (y),%eax ;", ATT_ORDER, undefined, "MOV [x],$1 | L: MOV EAX,[x] ;\n mfence | XCHG [y],EAX"],
  [ALL_ROWS, "add $1,%eax | lock xaddl %eax,(x) ;", ATT_ORDER, undefined, "ADD EAX,$1 | LOCK XADD [x],EAX"],
  [ALL_ROWS, "movl $1,4(%rax) | ;", ATT_ORDER, undefined, undefined],
  ["MOV [x],$1", "MOV $1,[x]", "lw does this by `MOV [x],$1`.", undefined, "MOV [x],$1 | MOV EAX,[x] ;"],
  ["EAX,[x]", "%eax,[x]", "A register has no `%` before it.", undefined, "MOV EAX,[x]"],
  ["X86 A", "X86_64 A", "A test begins with `SRC` or `X86`.", undefined, "X86"],
  [`X86 A\n{ x=0 }\n P0 | P1 ;\n ${ALL_ROWS}`, "X86_64 A\n{ uint64_t x; 1:rax=0 }\n P0 | P1 ;\n movq $1,(x) | movq x(%rip),%rax ;", "An x86 test begins with `X86`.",
    undefined, "X86 A\n{ x=0; 1:EAX=0 }\n P0 | P1 ;\n MOV [x],$1 | MOV EAX,[x]"],
  [ALL_ROWS, "mov dword ptr [x], 1 | mov eax, DWORD PTR x[rip] ;", "lw writes no sizes", undefined, "MOV [x],1 | MOV EAX,[x]"],
  [ALL_ROWS, "MOV x,1 | MOV EAX,x ;", "A location has brackets: `[x]`.", undefined, "MOV [x],1 | MOV EAX,[x]"],
  [ALL_ROWS, "MOV x,1 | MOV EXA,x ;", "A location has brackets: `[x]`.", undefined, "MOV [x],1 | MOV EXA,[x]"],
  [ALL_ROWS, "MOV RBX,[x] | MOV RAX,[x] ;", "Registers are `EAX` to `EDX`", undefined, "MOV EBX,[x] | MOV EAX,[x]"],
  [ALL_ROWS, "MOV [x],1 | JZ L ;\n | MOV RAX,[x] ;\n | L: ;", "Jumps are `JE`, `JNE` and `JMP`.", undefined, "JE L ;\n | MOV EAX,[x]"],
  [ALL_ROWS, "MOV 0:EBX,[x] | MOV 1:EAX,[x] ;", "In code a register has no thread before it", undefined, "MOV EBX,[x] | MOV EAX,[x]"],
  ["MOV EAX,[x]", "MOV 0:EAX,[x]", "`0:EAX` is a register of P0", undefined, undefined],
  [ALL_ROWS, "movl $1,(%rbx) | movl (%rbx),%eax ;", "`(%rbx)` is an address in a register", undefined, undefined],
  [ALL_ROWS, "movb $1,(x) | movb (x),%al ;", "`%al` is no register of lw", undefined, undefined],
  [ALL_ROWS, "movb $1,(x) | movl (x),%eax ;", "lw has words of 32 bits", undefined, undefined],
  [ALL_ROWS, "movq (x),%eax | movl (x),%eax ;", "An instruction has operands of 32 bits or of 64", undefined, undefined],
  [ALL_ROWS, "movq $1,(x) | movl (x),%eax ;", "This is AT&T's order", undefined, "MOV [x],$1 | MOV EAX,[x]"],
  [ALL_ROWS, "movq $1,(x) | subq $1,%rax ;", "may not fit into the 32 bits", undefined, undefined],
  [ALL_ROWS, "movl x,EAX | movl EAX,x ;", "A suffix is usual in AT&T's order", undefined, undefined],
  [ALL_ROWS, "movl $1,$x | movl $y,%eax ;", "`$x` is an address", undefined, undefined],
  [ALL_ROWS, "movl $-1,(x) | movl (x),%eax ;", ATT_ORDER, undefined, "MOV [x],$4294967295 | MOV EAX,[x]"],
  [ALL_ROWS, "movq $-1,(x) | movq (x),%rax ;", "may not fit into the 32 bits", undefined, undefined],
  [ALL_ROWS, "*x = 1 | int r0 = READ_ONCE(y) ;\n L: smp_mb() | x = r0 ;", "This is C.", undefined, "MOV [x],$1 | MOV EAX,[y] ;\n L: MFENCE | MOV [x],EAX"],
  ["MOV EAX,[x]", "atomic_store(&x,1)", "`atomic_store(&x,1)` is a call in C", undefined, undefined],
  ["MOV EAX,[x]", "x++", "lw does this by `MOV EBX,[x]`, then `ADD EBX,$1`", undefined, `MOV EBX,[x] ;\n${OTHER} ADD EBX,$1 ;\n${OTHER} MOV [x],EBX ;`],
  ["MOV EAX,[x]", "MOV y,x", "lw does this by `MOV EBX,[x]`, then `MOV [y],EBX`.", undefined, `MOV EBX,[x] ;\n${OTHER} MOV [y],EBX ;`],
  ["MOV EAX,[x]", "MOV [y],[x]", "lw does this by `MOV EBX,[x]`, then `MOV [y],EBX`.", undefined, `MOV EBX,[x] ;\n${OTHER} MOV [y],EBX ;`],
  ["MOV EAX,[x]", "SUB EAX,EBX", "lw has no `SUB`, and the page knows nothing", undefined, undefined],
  ["1:EAX=0", "1:RAX=0", "Registers are `EAX` to `EDX`, `ESI` and `EDI`, of 32 bits.", undefined, "1:EAX"],
  [ALL_ROWS, "MOV [x],EBX | MOV RAX,[x] ;", "Registers are `EAX` to `EDX`", undefined, "MOV EAX,[x]"],
  [ALL_ROWS, "MOV [x],EBX | MOVL RAX,[x] ;", "An instruction has operands of 32 bits or of 64", undefined, undefined],
  ["x=1 /\\ 1:EAX=0", "x != 1 && P1:EAX==-1", "A question has no `!=`", undefined, "~x=1 /\\ 1:EAX=4294967295"],
  ["1:EAX=0", "EAX=0", "A register has its thread before it", undefined, "1:EAX"],
  ["1:EAX=0", "r0=0", "A register has its thread before it", undefined, "1:EAX"],
  ["1:EAX=0", "EBX=0", "as in `0:EBX`. No thread's code has EBX.", undefined, undefined],
  ["MFENCE | XCHG [y],EAX ;\nexists (x=1 /\\ 1:EAX=0)", "MOV EAX,[y] | ;\nexists (x=1 /\\ EAX=0)", "outside of the code: `0:EAX` or `1:EAX`.", undefined, undefined],
  [`${ALL_ROWS}\nexists (x=1 /\\ 1:EAX=0)`, "x = 1 | r0 = y ;\n y = 1 | r1 = x ;\nexists (r0=1 && r1=0)", "All code is that of a source test", undefined,
    "SRC A\n{ x=0 }\n P0 | P1 ;\n x := 1 | r0 := y ;\n y := 1 | r1 := x ;\nexists (1:r0=1 /\\ 1:r1"],
  [`${ALL_ROWS}\nexists (x=1 /\\ 1:EAX=0)`, "x = 1 | r0 = y ;\n MFENCE | r1 = x ;\nexists (r0=1 && r1=0)", "This is C.", undefined,
    "MOV [x],$1 | MOV EAX,[y] ;\n MFENCE | MOV EBX,[x] ;\nexists (1:EAX=1 /\\ 1:EBX"],
  [`${ALL_ROWS}\nexists (x=1 /\\ 1:EAX=0)`, "MOV RAX,[x] | MOV [x],$1 ;\nexists (rax=0)", "Registers are `EAX` to `EDX`", undefined, "MOV EAX,[x] | MOV [x],$1 ;\nexists (0:EAX"],
  ["exists (x=1 /\\", "exist (x=1 &&", "lw has no question of the name `exist`.", undefined, "exists", 6],
  ["X86 A\n{ x=0 }\n P0 | P1 ;", "X86 A\n{ x=0 }\nP0 (int *x) {", "Its first word is `C` then.", undefined, undefined],
  ["X86 A", "use std::thread;\nX86 A", "`python3 tools/from_c.py --show mine.rs`", undefined, undefined],
  [ALL_ROWS, "lock; xaddl %eax,(x) | movl $1,(x) ;", "Only a row's end has a `;`.", undefined,
    RIGHT.replace(ALL_ROWS, () => "lock xaddl %eax,(x) | movl $1,(x) ;").replace(/^[^]*(?=P0)/, "")],
  ["(x=1 /\\ 1:EAX=0)", "(*x=1 /\\ 1:EAX=0)", "`(*` opens a comment", undefined, "(x=1 /\\ 1:EAX=0)\n", 6],
  ["(x=1 /\\ 1:EAX=0)", "(0:r0=1 /\\ 1:r0=0)", "Registers are `EAX` to `EDX`", undefined, "0:EAX=1 /\\ 1:EAX"],
  [RIGHT, "mov dword ptr [x], 1\nmov eax, dword ptr [y]\nret\n", "These are instructions without a test around them.", undefined,
    "X86 Mine\n{}\n P0 ;\n MOV [x],1 ;\n MOV EAX,[y] ;\nlocations [x;]\nexists (0:EAX=0)\n"],
  [RIGHT, "mov [x],1\nmov eax,[y]\nret\n\nmov [y],1\nmov ebx,[x]\n", "A blank line begins the next thread.", undefined,
    "X86 Mine\n{}\n P0          | P1          ;\n mov [x],1   | mov [y],1   ;\n mov eax,[y] | mov ebx,[x] ;\nexists (0:EAX=0 /\\ 1:EBX=0)\n"],
  [RIGHT, "movl $1,x(%rip)\n\nmovl y(%rip),%eax\nmovl %eax,z(%rip)\n", "The question is a guess: change it to yours.", undefined,
    "X86 Mine\n{}\n P0         | P1          ;\n MOV [x],$1 | MOV EAX,[y] ;\n            | MOV [z],EAX ;\nlocations [x; z;]\nexists (1:EAX=0)\n"],
  ["P0 | P1", "P0 P1", "The threads' names have a `|` between them.", undefined, `${ALIGNED}${LAST}`, 3],
  [`P0 | P1 ;\n ${ALL_ROWS}`, "P0, P1\n mov [x],1  mov eax,[x]\n            mfence\n mfence     xchg [y],eax", "The threads' names and the cells have", undefined,
    ` P0        | P1           ;\n mov [x],1 | mov eax,[x]  ;\n           | mfence       ;\n mfence    | xchg [y],eax ;\n${LAST}`, 3],
  [`P0 | P1 ;\n ${ALL_ROWS}`, "P0 P1 ;\n mov [x],1  mov eax,[x] ;\n    mfence ;", "`P1` is not expected here.", undefined, undefined],
  [`P0 | P1 ;\n ${ALL_ROWS}\nexists (x=1 /\\`, "P0  P1 ;\n movl $1,(x)  movl (x),%eax ;\nexists (x=1 &&", "This is AT&T's order", undefined,
    `X86 A\n{ x=0 }\n P0         | P1          ;\n MOV [x],$1 | MOV EAX,[x] ;\n${LAST}`, 3],
  [RIGHT, "cmp eax,0\nje L\n\nmov [x],1\n\nL: mov [y],1\n", "These are instructions without a test around them.", undefined,
    "X86 Mine\n{}\n P0 ;\n cmp eax,0 ;\n je L ;\n mov [x],1 ;\n L: mov [y],1 ;\nlocations [0:EAX; x; y;]\nexists (true)\n"],
  [ALL_ROWS, "mov eax,ebx | movl %eax,%ebx ;\n mov [x],eax | movl %ebx,(y) ;", "`eax` says Intel's order", undefined, undefined],
  [ALL_ROWS, "mov [x],1 | movl (y),%eax ;", "`[x]` says Intel's order, with the destination first, and `(y)` says AT&T's", undefined, undefined],
  [ALL_ROWS, "mov dword ptr [x],1 | movl eax,x ;\n mov eax,[y] | movl y,eax ;", "A suffix is usual in AT&T's order", undefined, undefined],
  [ALL_ROWS, "mov $1,x | mov y,$1 ;\n mov y,eax | mov eax,x ;", "only one order can be right", undefined, undefined],
  ["MOV EAX,[x]", "TEST EAX,EAX", "lw does this by `CMP EAX,$0`.", undefined, "CMP EAX,$0 ;"],
  ["MOV EAX,[x]", "TEST EAX,EBX", "lw has no `TEST`, and the page knows nothing", undefined, undefined],
  ["MOV EAX,[x]", "XOR EAX,EAX", "`XOR` of a register with itself sets it to 0.", undefined, "MOV EAX,$0"],
  ["EAX,[x] ;\n MFENCE | XCHG [y],EAX", "EAX,[x] ;\n | XOR EBX,EBX ;\n | JE L ;\n | L:", "lw does this by `MOV EBX,$0`, then `CMP EBX,$0`.", undefined,
    "MOV EBX,$0 ;\n | CMP EBX,$0  ;"],
  ["MOV EAX,[x]", "LOCK OR [y],$0", "lw does this by `MOV EBX,$0`, then `LOCK XADD [y],EBX`.", undefined, `MOV EBX,$0 ;\n${OTHER} LOCK XADD [y],EBX ;`],
  ["MOV EAX,[x]", "PAUSE", "`PAUSE` and `NOP` change no state.", undefined, "     "],
  ["MOV EAX,[x]", "L: rep nop", "`PAUSE` and `NOP` change no state.", undefined, "L:        "],
  ["MFENCE", "lock add dword ptr [rsp],0", "A locked instruction on the stack is a fence.", undefined, "MFENCE"],
  [ALL_ROWS, "movl $1,(x) | subl $1,%eax ;\n lock addl $0,(%rsp) | lock orl $0,-4(%rsp) ;\n nop | decl %eax ;", "lw has sums only.", undefined,
    "MOV [x],$1 | ADD EAX,$4294967295 ;\n MFENCE | MFENCE ;\n     | ADD EAX,$4294967295"],
  ["exists (x=1 /\\ 1", "not exists (x=1 && P1", "A question begins with", undefined, "~exists (x=1 /\\ 1:EAX"],
  ["exists", "forbidden", "Did you mean `~exists`?", undefined, "~exists"],
  [ALL_ROWS, "MOV [x],$1 MOV EAX,[x] ;", "Cells have a `|` between them.", undefined, ` MOV [x],$1 | MOV EAX,[x] ;\n${LAST}`, 4],
  [ALL_ROWS, "MOV [x],$1; MFENCE | MOV EAX,[x] ;", "A cell has one statement", undefined, ` MOV [x],$1 | MOV EAX,[x] ;\n MFENCE |  ;\n${LAST}`, 4],
  [ALL_ROWS, "MOV [x],$1 ; MOV EAX,[x] ;", "and `;` only at its end", undefined, undefined],
  ["X86 A", "// mine\nX86 A", COMMENTS, undefined, `(* mine *)\n${RIGHT}`],
  ["MOV [x],$1", "MOV [x],#1", "A constant has no `#` before it.", undefined, "MOV [x],$1"],
  ["P1 ;", "P1 ; # a\n(* b # *)", COMMENTS, undefined, `(* a *)\n(* b # *)${RIGHT.split("P1 ;")[1]}`],
  ["P1 ;", "P1 ; /* a\n b */", COMMENTS, undefined, `(* a\n b *)${RIGHT.split("P1 ;")[1]}`],
  ["P1 ;", "P1 ; // (* a *) b", COMMENTS, undefined, undefined],
  ["{ x=0 }\n", "", "The initial values are missing before the threads", undefined, "{}\n"],
  ["X86 A\n{ x=0 }\n", "", "The first line is missing", undefined, "X86 Mine\n{}\n"],
  ["X86 A\n", "", "The first line is missing", undefined, "X86 Mine\n"],
  ["X86 A", "X86", "The test has no name", undefined, " Mine"],
  ["{ x=0 }", "{ uint64_t x; }", NO_TYPES, undefined, "{ x=0 }"],
  ["{ x=0 }", "{ int x = 0; int y; y=2 }", NO_TYPES, undefined, "{ x=0; y=2 }"],
  ["{ x=0 }", "{ int x = 0; int y[2]; }", NO_TYPES, undefined, undefined],
  ["{ x=0 }", "{ int x = 0; x=1; }", NO_TYPES, undefined, undefined],
  ["X86 A", "C A", "tools/from_c.py", undefined, undefined],
  ["X86 A", "#include <stdatomic.h>\nX86 A", "tools/from_c.py", undefined, undefined],
  ["X86 A", "atomic_int x;\nX86 A", "tools/from_c.py", undefined, undefined],
  ["X86 A", "AArch64 A", "`AArch64` is the language of another processor in herd's tests.", undefined, undefined],
  ["X86 A\n{ x=0 }", "X86_64 A\n{ x=0; 0:rbx=x; }", "tools/from_herd.py", undefined, undefined],
  ["{ x=0 }", "{ x=0 && y=1 }", "Initial values have a `;` between them: ", undefined, "{ x=0; y=1; }"],
  ["EAX,[x]", "EAX [x]", NO_COMMA, undefined, "MOV EAX,[x]"],
  ["[x],$1", "[x] $1", NO_COMMA, undefined, "MOV [x],$1"],
  ["[y],EAX", "[y] EAX", NO_COMMA, undefined, "XCHG [y],EAX"],
  ["EAX,[x]", "EAX [", NO_COMMA, undefined, "MOV EAX,["],
  ["MOV EAX,[x]", "ADD EAX,[x]", "lw does this by `MOV EBX,[x]`, then `ADD EAX,EBX`.", undefined, `MOV EBX,[x] ;\n${OTHER} ADD EAX,EBX ;`],
  ["$1", "$-1", NO_NEGATIVE, undefined, "MOV [x],$4294967295"],
  ["$1", "1.5", NO_CONSTANT, undefined, undefined],
  ["x=0", "x=-1", NO_NEGATIVE, undefined, "4294967295"],
  ["$1", "$4294967296", NO_CONSTANT, undefined, undefined],
];

// Edits of the right text; what is at the first fault then and at the further ones, from top to bottom; and of the text that is proposed the edits.
const FURTHER_FAULTS = [
  [[["MOV [x]", "MVO [x]"]], ["MVO"], []],
  [[["MOV [x]", "MVO [x]"], ["MFENCE", "MFENC"], ["XCHG", "XCHNG"]], ["MVO", "MFENC", "XCHNG"], []],
  [[["MOV [x]", "FOO [x]"], ["MFENCE", "MFENC"], ["/\\ 1", "&& 1"]], ["&&", "FOO", "MFENC"], null],
  [[["X86", "x86"], ["MFENCE", "(* é𝄞 *) MFENCE zz"], ["exists", "exist"]], ["exist", "x86", "zz"], null],
  [[["X86", "x86"], ["MFENCE", "MFENC"], ["MOV EAX", "MVO EAX"]], ["x86", "MVO", "MFENC"], []],
  // The first change is of two places, between which there is another fault.
  [[["[x],$1", "x,#1"], ["MFENCE", "MFENC"], ["/\\ 1", "&& 1"]], ["#1", "MFENC"], []],
  // Rows that are put in do not move what is below them, and what is too many by them is no fault of the text.
  [[["MOV EAX,[x]", "INC [x]"], ["XCHG", "XCHNG"]], ["INC", "XCHNG"],
    [["MOV EAX,[x]", `MOV EBX,[x] ;\n${OTHER} ADD EBX,$1 ;\n${OTHER} MOV [x],EBX`]]],
  [[["MOV EAX,[x]", "INC [x]"], [" MFENCE |", `${" | MFENCE ;\n".repeat(30)} MFENCE |`]], ["INC"], null],
  // A label that lacks its mark is not missing, too; and a label in front of a fault stays.
  [[["MOV EAX,[x]", "JMP L"], ["XCHG", "L XCHG"]], ["L XCHG"], null],
  [[["MOV [x],$1", "JMP L"], ["MFENCE", "L: FOO"], ["XCHG", "XCHNG"]], ["FOO", "XCHNG"], null],
  // Of a cell the first fault is named, and all are changed.
  [[["MOV [x],$1", "MVO EXA,$1"], ["XCHG", "XCHNG"]], ["MVO", "XCHNG"], [["MOV [x],$1", "MOV EAX,$1"]]],
  // After a fault of the text that has no change, and without a first line, nothing is known.
  [[["[x] ;", "[y] [x]"], ["MFENCE", "MFENC"]], [";\nexists"], null],
  [[["X86", "x86"], ["[x] ;", "[y] [x]"], ["MFENCE", "MFENC"]], ["x86", ";\nexists"], null],
  [[["X86 A\n", ""], ["MFENCE", "MFENC"]], ["{ x=0 }"], null],
  [[["MOV [x]", "MVO [x]"], ["X86", "x86"], [" /\\ 1:EAX=0)\n", " /\\"]], ["x86", ""], null],
];

/** Returns the examples by family, as tools/page/web_files.py makes them. */
function familiesOfPage() {
  const lines = ["import json", "from page import web_files", "print(json.dumps(web_files.list_families()))"];
  const script = lines.join("\n");
  return JSON.parse(spawnSync("python3", ["-B", "-c", script], { cwd: `${HOME}/tools`, maxBuffer: 2 ** 26 }).stdout);
}

function example(name) {
  return fs.readFileSync(`${HOME}/examples/${name}.litmus`, "utf8");
}

/** Compares some answers with what is typed in here. */
function compareTyped(page, program, tally) {
  const ask = (question, text, more = {}) => page.questions.answerQuestion(program, question, { text, ...more });
  const compare = (what, expected, actual) => tally.compare(what, expected, JSON.parse(JSON.stringify(actual)));
  for (const [name, question, isSo, telling, ...verdict] of VERDICTS) {
    const { words, report, language } = ask("states", example(name));
    const headline = page.verdicts.describeVerdict(language, report, page.condition_words.describeCondition(example(name)));
    compare(`the words on ${name}`, [question, isSo, telling, ...verdict], [words.question, words.is_so, words.telling, ...headline]);
  }
  compare("in how many states a condition holds", COUNTS.map(([, , words]) => words),
    COUNTS.map(([positive, number]) => page.verdicts.describeCount({ positive, number })));
  const causes = (name, schedule) => {
    const { moves } = ask("moves", example(name), { schedule, protocol: "mesi" });
    return moves.map(({ event, refused }) => [event, refused && refused.cause]);
  };
  compare("what the machine can do after P0", MOVES, causes("SB+mfences-x86", "P0"));
  compare("what a source test can do", [["P0", "Ended"], ["P1", null]], causes("SB", "P0 P0"));
  const added = ["0:EAX=0; 1:EAX=0;"];
  const rows = [{ place: "P0 at 1, before MOV EAX,[y]", added }, { place: "P1 at 1, before MOV EAX,[x]", added }];
  const table = { rows, enough: ["P0 at 1", "P1 at 1"], states: 3, positive: 0, answered_by: ["program"] };
  compare("the fences of SB", table, ask("fences", example("SB"), { everything: false }).table);
  compare("the places of the fences of SB", [[0, 1], [1, 1]], ask("compile", example("SB")).fences);
  const { source } = ask("film", example("SB"), { state: "0:r0=1; 1:r0=1;", protocol: "mesi" }).films;
  compare("a source run has one step for each statement", ["P0", "P1", "P0", "P1"], source.events);
  compare("the code of a source run", [{ text: "x := 1", at: 0 }, { text: "r0 := y", at: 1 }], source.cells[0]);
  const answer = ask("film", example("SB"), { state: "0:r0=7; 1:r0=0;", protocol: "mesi" });
  compare("a state that is none", { error: "The test does not end in `0:r0=7; 1:r0=0;`." }, answer);
  const faulty = "SRC Mine (* é𝄞 *)\n{}\n P0 ;\n(* é𝄞 *) x = 1 ;\nexists (x=1)\n";
  const { kind, number, name, row, column, index } = ask("states", faulty).fault;
  compare("a fault, with a column that counts characters", ["cell", 1, "Form", 4, 12, "= 1"],
    [kind, number, name, row, column, faulty.slice(index, index + 3)]);
  const deep = (word) => `SRC A\n{}\n P0 | P1 ;\n x := 1 | x := 2 ;\nexists ${"(".repeat(30000)}x=${word}${")".repeat(30000)}\n`;
  const hasMarks = Boolean(program.workbench.hasFilmsAndMarks);
  for (const [word, isProved] of [[1, hasMarks], [7, true]]) {
    const { report } = ask("states", deep(word));
    const expected = [["Test A Allowed", "States 2"], isProved, isProved];
    compare("a test that only lw reads has its report, and marks only if they are proved", expected, [report.head, report.is_marked, report.is_proved]);
  }
  const named = "X86 <b>\n{}\n P0 ;\n MOV [x],$1 ;\nexists (x=1)\n";
  const { picture } = ask("picture", named, { schedule: "P0", protocol: "mesi", strip: true });
  compare("a picture holds a test's name as a text", [true, false], [picture.includes("&lt;b&gt;"), picture.includes("<b>")]);
}

const BY_TURNS = "by interleaving, in which the threads take turns,";
// Of examples the question, whether the answer is yes, the state that shows it, and the verdict: its kind, its word and its sentence.
const VERDICTS = [
  ["SB", `Can a run ${BY_TURNS} end this way`, false, null, "cannot", "Forbidden.",
    "There is no run by interleaving in which P0 reads `y=0` and P1 reads `x=0`."],
  ["SB-x86", "Can a run on x86-TSO end this way", true, 0, "can", "Allowed.", "There is a run in which P0 reads `y=0` and P1 reads `x=0`."],
  ["MP-x86", "Can a run on x86-TSO end this way", false, null, "yes", "Forbidden.", "There is no run in which P1 reads `y=1`, then `x=0`."],
  ["Counter", `Does every run ${BY_TURNS} end this way`, true, null, "yes", "Always.", "In every run by interleaving memory ends with `x=2`."],
  ["CoRW", `Can a run ${BY_TURNS} end this way`, false, null, "yes", "Forbidden.",
    "There is no run by interleaving in which P0 reads `x=1`, or P0 reads `x=2` and memory ends with `x=2`."],
  ["ByteLock", `Can a run ${BY_TURNS} end this way`, false, null, "yes", "Forbidden.",
    "There is no run by interleaving in which P0 and P1 both end with `r2=1`, or P0 and P2 both end with `r2=1`."],
  ["TryLock", `Can a run ${BY_TURNS} end this way`, false, null, "yes", "Forbidden.",
    "There is no run by interleaving in which P0 and P1 both end with `r0=0` and memory ends with `n≠2`."],
];
const COUNTS = [
  [0, 3, "The condition holds in none of 3 final states."], [1, 4, "The condition holds in 1 of 4 final states."],
  [4, 4, "The condition holds in all 4 final states."], [1, 1, "The condition holds in the only final state."],
  [0, 1, "The condition does not hold in the only final state."],
];
const MOVES = [
  ["P0", "FenceWaits"], ["D0", null], ["E0:x", "NotHeld"], ["E0:y", "NotHeld"],
  ["P1", null], ["D1", "BufferEmpty"], ["E1:x", "NotHeld"], ["E1:y", "NotHeld"],
];

/** A module that has trapped says so, and answers the next question, by another instance. */
function compareTrapped(page, tally, workbench) {
  const ask = () => page.questions.answerQuestion(new page.program.Program(workbench), "compile", { text: example("SB") });
  const expected = ask();
  const trap = () => {
    throw new WebAssembly.RuntimeError("unreachable");
  };
  workbench.kept = { ...workbench.kept, lw_compile: trap };
  const { error, isBeyond } = ask();
  tally.compare("a trap is reported", ["The module was ended by the browser: RuntimeError: unreachable.", true], [error, isBeyond]);
  tally.compare("after a trap the module answers", expected, ask());
}

/** The workbench that is asked: the program, or in place of it a module or a server. */
async function workbenchOf(page, tally, { module, server }) {
  if (server) {
    globalThis.XMLHttpRequest = requestsTo(server);
    return new Both(new page.served.Served(), tally);
  }
  if (!module) return new Native();
  const compiled = await page.module.compileModule(fs.readFileSync(module));
  if (compiled === null) throw new Error(`${module} is no module that this node takes (--experimental-wasm-memory64)`);
  compareTrapped(page, tally, new page.module.Workbench(compiled));
  const number = Number(fs.readFileSync(`${HOME}/include/lw.h`, "utf8").match(/^#define LW_VERSION (\d+)$/m)[1]);
  const version = `${Math.floor(number / 100)}.${number % 100}`;
  tally.compare("the version of the module is that of lw.h", version, new page.module.Workbench(compiled).version());
  return new Both(new page.module.Workbench(compiled), tally);
}

async function main() {
  const options = { module: { type: "string" }, server: { type: "string" } };
  const { values, positionals: chosen } = parseArgs({ options, allowPositionals: true });
  const tally = new Tally();
  const page = await loadPage();
  const program = new page.program.Program(await workbenchOf(page, tally, values));
  const names = fs.readdirSync(`${HOME}/examples`).filter((it) => it.endsWith(".litmus")).map((it) => it.slice(0, -7)).sort();
  const texts = names.filter((it) => !chosen.length || chosen.includes(it)).map((it) => [it, example(it)]);
  const waiting = [...(chosen.length ? [] : typedTexts()), ...texts];
  compareRefused(page, tally);
  compareArguments(page, tally);
  compareDifferences(page, tally);
  compareSeenHere(page, tally);
  compareBudgets(page, tally);
  if (!values.server) compareSearches(page, program, tally, texts);
  compareAligned(page, tally, waiting);
  compareOwnRuns(page, program, tally, texts);
  compareTurns(page, program, tally, texts);
  compareFenceEdits(page, tally, texts);
  compareSlips(page, tally);
  compareHints(page, program, tally);
  compareMendedTexts(page, program, tally);
  compareSourceHints(page, program, tally);
  await compareCPrograms((...compared) => tally.compare(...compared));
  await compareAssemblyTexts((...compared) => tally.compare(...compared));
  await comparePaperTexts((...compared) => tally.compare(...compared));
  await comparePseudoTexts((...compared) => tally.compare(...compared));
  await compareRustPrograms((...compared) => tally.compare(...compared));
  await comparePhrases((...compared) => tally.compare(...compared));
  await compareConvertedPrograms((...compared) => tally.compare(...compared));
  await compareChangedPrograms((...compared) => tally.compare(...compared));
  await compareProgramsInTerms((...compared) => tally.compare(...compared));
  await compareFurtherFaults(page, program, tally, texts);
  if (!chosen.length) compareFinding(page, tally, familiesOfPage());
  if (!chosen.length) compareTyped(page, program, tally);
  const work = async () => {
    const plain = new Plain();
    while (waiting.length) await compareText(page, program, plain, tally, ...waiting.shift());
    plain.end();
  };
  await Promise.all(Array.from({ length: WORKERS }, work));
  console.log(`${tally.passed} passed, ${tally.failed} failed`);
  process.exitCode = tally.failed ? 1 : 0;
}

await main();
