// Rewrites a program in Rust as an x86 test: as one in C++ first, whose accesses rustc compiles as clang does. Not proved.
//
// An `Item` is a static variable, a constant or a function.

import { findClosing } from "./c_code.js";
import { rewriteProgram } from "./c_program.js";
import { rewriteGenericLock } from "./rust_generic_lock.js";
import { nameResult, OF_MAIN, OUTPUT, Starter } from "./rust_main.js";
import { nameVariables } from "./rust_names.js";
import { joinStatements, readFront, splitArguments, splitStatements, TYPES, Unread, writeBody, writeExpression } from "./rust_statements.js";
import { desugar } from "./rust_sugar.js";
import { blankText, checkNegations } from "./rust_text.js";

// A type of 64 bits.
const WIDE_TYPE = /\b(?:Atomic(?:[UI]size|[UI]64)|[ui](?:size|64))\b/;
const QUESTION = /\/\/ ?lw:.*/;
const ATTRIBUTES = /^(?:\s|#!?\[[^\]]*\])*/;
// What is left out; and a static variable, a constant, a function, a module, a structure and its methods: the groups are the names, types, values and
// parameters.
const SKIPPED = /^(?:pub(?:\([^)]*\))?\s+)?(?:(?:use|extern\s+crate)\b[^;]*|mod\s+\w+\s*);|^unsafe\s+impl\s+(?:Send|Sync)\s+for\s+\w+\s*\{\s*\}/;
const STATIC = /^(?:pub(?:\([^)]*\))?\s+)?(static|const)\s+(?:mut\s+)?(\w+)\s*:\s*([^=]+?)\s*=\s*/;
const FUNCTION = /^(?:pub(?:\([^)]*\))?\s+)?(?:const\s+)?(?:unsafe\s+)?(?:extern\s+"C"\s+)?fn\s+(\w+)\s*(?:<'[\s\w',]*>\s*)?(?=\()/;
const MODULE = /^(?:pub\s+)?mod\s+\w+\s*(?=\{)/;
const STRUCT = /^(?:pub(?:\([^)]*\))?\s+)?struct\s+(\w+)\s*(?=\{)/;
const METHODS = /^impl\s+(\w+)\s*(?=\{)/;
const BLOCKS = [["fn", FUNCTION], ["mod", MODULE], ["struct", STRUCT], ["impl", METHODS]];
const PARAMETER = /^(?:mut\s+)?(\w+)\s*:\s*(&?)\s*(?:'\w+\s+)?(?:mut\s+)?(?:\w+::)*(Arc<)?(?:\w+::)*(\w+)>?$/;
const OF_LIBRARY = /^(?:(?:compiler_)?fence|spin_loop(?:_hint)?|yield_now|sleep)$/;
// The methods of a lock.
const LOCKS = [["lock", "unlock"], ["acquire", "release"], ["enter", "leave"], ["enter", "exit"]];
const DEEPEST = 4;
const LONGEST = 20000;
const OF_ITEMS = ": outside of functions are only `use`, constants and static variables of integers and atomics";
const OF_GENERIC = ": types with parameters are not rewritten, so write it for the type that it has";
const OF_POINTERS = ": all words of a test have names, so a list of objects by pointers, as a stack or a queue of waiting threads, is not rewritten";
const OF_TUPLES = ": a structure has fields with names, as `struct Lock { held: AtomicBool }`";
const OF_TYPES = [OF_GENERIC, ": a structure has one object here", OF_ITEMS];
const OF_RESULTS = ": a thread returns its last expression only";

/** Throws Unread for an attribute by which an item may not be compiled, and for a name of what is used that is another here. */
function checkItem(attributes, used) {
  const [renamed] = (used && /\w+\s+as\s+(?!_\W)\w+/.exec(used)) || [];
  if (renamed) throw new Unread(renamed, ": use each name as it is");
  const [chosen] = (!used && /#\[\s*cfg\((?!(?:test|loom)\))[^\]]*\]/.exec(attributes)) || [];
  if (chosen) throw new Unread(chosen, ": leave out what is not compiled");
}

/** Returns why an item is refused, as the end of a sentence. */
function explainItem(code) {
  const [, kind, mark] = /^(?:pub(?:\([^)]*\))?\s+)?(?:unsafe\s+)?(struct|impl|fn)\s*\w*\s*([<(])/.exec(code) ?? [];
  return mark === "<" ? OF_GENERIC : kind === "struct" ? OF_TUPLES : OF_ITEMS;
}

/** Returns the items of code, and those of its modules, in which there are few others. */
function readItems(code, depth = 0) {
  const items = [];
  let [attributes] = ATTRIBUTES.exec(code);
  let rest = code.slice(attributes.length);
  while (rest) {
    const [block, [head, name] = []] = BLOCKS.map(([word, it]) => [word, it.exec(rest) ?? undefined]).find(([, it]) => it) ?? [];
    const [skipped] = SKIPPED.exec(rest) ?? [];
    const [begin, kind, variable, type] = skipped ? [] : STATIC.exec(rest) ?? [];
    const value = begin && readFront(rest.slice(begin.length), ";");
    const whole = begin && rest.slice(0, begin.length + value.length + 1);
    const open = head === undefined ? -1 : block === "fn" ? rest.indexOf("{", findClosing(rest, head.length)) : rest.indexOf("{");
    const close = open < 0 ? -1 : findClosing(rest, open);
    checkItem(attributes, skipped);
    if (!skipped && !whole && close < 0) throw new Unread(/^[^;{]*/.exec(rest)[0], explainItem(rest));
    if (whole) items.push({ kind, name: variable, type, value });
    else if (!skipped) items.push(...readBlock(block, name, rest.slice(head.length, open), rest.slice(open + 1, close), depth));
    rest = rest.slice(skipped?.length ?? whole?.length ?? close + 1);
    [attributes] = ATTRIBUTES.exec(rest);
    rest = rest.slice(attributes.length);
  }
  return items;
}

/** Returns the items of a block: of a module those that it has. */
function readBlock(kind, name, signature, body, depth) {
  if (kind === "fn" || kind === "struct") return [{ kind, name, signature, body }];
  if (depth === DEEPEST) throw new Unread(`${kind} ${name ?? ""}`, OF_ITEMS);
  const items = readItems(body, depth + 1);
  return kind === "mod" ? items : [{ kind, name, items }];
}

/** Returns the class in C++ of a structure, whose object is a variable with initial words, and that object. Throws Unread if it has more than atomics. */
function writeObject({ name, type, value }, items, taken) {
  const fault = new Unread(`static ${name}: ${type}`, ": a structure has atomics, methods with `&self`, and one object, which a function `new()` makes");
  const struct = items.find((it) => it.kind === "struct" && it.name === type);
  const methods = items.filter((it) => it.kind === "impl" && it.name === type).flatMap((it) => it.items);
  const [, , made] = /^(\w+)::(\w+)\(\)$/.exec(value.trim()) ?? [];
  const maker = methods.find((it) => it.name === made && /^\(\s*\)/.test(it.signature));
  const [, literal] = /^(?:Self|[A-Z]\w*)\s*\{([^]*)\}$/.exec((maker?.body ?? value).trim()) ?? [];
  if (literal === undefined) throw fault;
  const readPart = (it) => /^(?:pub(?:\([^)]*\))?\s+)?(\w+)\s*:\s*([^]+)$/.exec(it)?.slice(1) ?? [];
  const words = new Map(splitArguments(literal).map(readPart));
  const parts = splitArguments(struct.body).map(readPart);
  const fields = parts.map(([field, of = ""]) => ({ kind: "static", name: field, type: of, value: words.get(field) ?? "" }));
  if (fields.some((it) => !TYPES.has(it.type.replace(/^\[\s*|\s*;[^\]]*\]$/g, "").replace(/^.*::/, "")) || !it.value)) throw fault;
  const all = new Set([...taken, ...fields.map((it) => it.name)]);
  const written = methods.filter((it) => it !== maker).map(({ signature, ...others }) => {
    if (!/^\(\s*&\s*self\b/.test(signature)) throw fault;
    return writeFunction({ ...others, signature: signature.replace(/&\s*self\s*,?/, "") }, all).replace(/\bself\s*\.\s*/g, "");
  });
  if (/\bself\b/.test(written.join(""))) throw fault;
  return `struct ${type} { ${[...fields.map((it) => declare(it, items)), ...written].join(" ")} };\n${type} ${name};`;
}

/** Returns the declaration of a static variable or a constant in C++. Throws Unread if it is of another type. */
function declare({ kind, name, type, value }, all) {
  const [, element, number] = /^\[\s*([^;]+?)\s*;\s*(\w+)\s*\]$/.exec(type) ?? [type, type];
  const cpp = TYPES.get(element.replace(/^.*::/, ""));
  const word = (it) => writeExpression(it.trim().replace(/^(?:const\s*\{)?\s*(?:[\w:]+::)?new\(([^()]*)\)\s*\}?$/, "$1"), new Map());
  const [, repeated] = /^\[([^;]*);[^;]*\]$/.exec(value.trim()) ?? [];
  if (type === "Lock") return `std::mutex ${name};`;
  const count = all.find((it) => it.kind === "const" && it.name === number)?.value.trim() ?? number;
  if (!cpp || (kind === "const" && /Atomic/.test(cpp + type)) || (count && !/^[1-9]$/.test(count))) throw new Unread(`${kind} ${name}: ${type}`, OF_ITEMS);
  if (!count) return kind === "const" ? `constexpr ${cpp} ${name} = ${word(value)};` : `${cpp} ${name}{${word(value)}};`;
  const words = repeated ? Array(Number(count)).fill(word(repeated)) : splitArguments(value.trim().slice(1, -1)).map(word);
  return `${cpp} ${name}[${count}] = {${words.join(", ")}};`;
}

/** Returns a function in C++. Throws Unread if its types are others. */
function writeFunction({ name, signature, body }, taken) {
  const close = findClosing(signature, 0);
  const [, result] = /->\s*([\w:]+)/.exec(signature.slice(close)) ?? [];
  const parameters = splitArguments(signature.slice(1, close)).map((it) => {
    const [, parameter, reference, counted, type] = PARAMETER.exec(it.trim()) ?? [];
    if (!TYPES.has(type)) throw new Unread(`fn ${name}${signature}`, ": its parameters are integers, `bool`, and references to atomics");
    return `${TYPES.get(type)}${counted ? "&" : reference} ${parameter}`;
  });
  if (result && !TYPES.has(result)) throw new Unread(`fn ${name}${signature}`, ": it returns an integer or a `bool`");
  const all = new Set([...taken, ...parameters.map((it) => /\w+$/.exec(it)[0])]);
  const own = writeBody(nameVariables(body, new Map(), all), new Map(), Boolean(result));
  // A truth is a word of a thread.
  return `${result === "bool" ? "int" : result ? TYPES.get(result) : "void"} ${name}(${parameters.join(", ")}) {${own}}`;
}

/** Returns a thread in C++, which sets the variables of its results at its end. */
function writeThread({ body, results, isOwn }, number) {
  const statements = splitStatements(body);
  const last = statements.at(-1) ?? "";
  const isValue = results.length > 0 || (last && !/[;}]\s*$/.test(body) && !/^(?:let|if|while|loop|for|return)\b/.test(last));
  const read = !results.length && /^\w+$/.test(last) && isValue ? joinStatements(statements.slice(0, -1)) : body;
  if (isOwn || !results.length || !isValue) return `void P${number}() {${writeBody(read, new Map(), false)}}`;
  if (/\breturn\b/.test(body)) throw new Unread(/\breturn\b[^;]*/.exec(body)[0], OF_RESULTS);
  const values = results.length > 1 ? splitArguments(last.replace(/^\(([^]*)\)$/, "$1")) : [last];
  if (values.length !== results.length) throw new Unread(last, OF_RESULTS);
  const own = results.length === 1 ? statements.findIndex((it) => new RegExp(`^let\\s+(?:mut\\s+)?${last}(?:\\s*:\\s*\\w+)?\\s*=(?!=)`).test(it)) : -1;
  if (own >= 0 && /^\w+$/.test(last)) {
    // The variable of the thread that is returned is the result.
    const all = statements.slice(0, -1).map((it, at) => (at === own ? it.replace(/^let\s+(?:mut\s+)?(\w+)(?:\s*:\s*\w+)?/, "$1") : it));
    return `void P${number}() {${writeBody(joinStatements(all), new Map([[last, nameResult(results[0], number)]]), false)}}`;
  }
  const set = results.map((name, at) => `${nameResult(name, number)} = ${writeExpression(values[at].trim(), new Map())};`);
  return `void P${number}() {${writeBody(joinStatements(statements.slice(0, -1)), new Map(), false)} ${set.join(" ")}}`;
}

/** Throws Unread if `main` does more than to call the function that starts threads, or if that is not called as it is. */
function checkMain(functions, starting) {
  const main = functions.find((it) => it.name === "main");
  const loop = new RegExp(`^for\\s+_\\s+in\\s+[\\w.]+\\s*\\{\\s*${starting?.name}\\(\\);?\\s*\\}$`);
  const isSkipped = (it) => OUTPUT.test(it) || it === `${starting?.name}()` || loop.test(it);
  const other = main && main !== starting ? splitStatements(main.body).find((it) => !isSkipped(it)) : undefined;
  if (other) throw new Unread(other, starting ? OF_MAIN : ": `main` starts no threads");
  if (!starting || /^\(\s*\)/.test(starting.signature)) return;
  throw new Unread(`fn ${starting.name}${starting.signature}`, ": what starts threads has no parameters");
}

/** Throws Unread for a name that two variables or their words have in a test, and for that of a function of the library. */
function checkNames(variables, functions, structs) {
  const names = variables.map((it) => it.name);
  const twice = names.find((it, at) => names.indexOf(it) !== at);
  const isPart = (rest, type) => (/^\[/.test(type) && /^\d+$/.test(rest)) || structs.some((it) => it.name === type);
  const part = names.find((it) => variables.some(({ name, type }) => it.startsWith(`${name}_`) && isPart(it.slice(name.length + 1), type)));
  if (twice ?? part) throw new Unread(twice ?? part, ": give it a name that no other variable has");
  const known = functions.find((it) => OF_LIBRARY.test(it.name));
  if (known) throw new Unread(`fn ${known.name}`, ": a function of the library has its name");
}

/** Throws Unread for a question of a variable whose name a later one has, too. */
function checkQuestion(question, program) {
  const names = [...question.matchAll(/\d:([A-Za-z_]\w*)/g)].map(([, name]) => name);
  const twice = names.find((it) => new RegExp(`\\b${it}_\\d+\\b`).test(program));
  if (twice) throw new Unread(twice, ": ask of a variable whose name no other has");
}

/** Returns the declarations of variables in C++. Throws Unread for a structure that has not one object. */
function declareAll(variables, items, structs, taken) {
  const counts = structs.map(({ name }) => [name, variables.filter((it) => it.type === name).length]);
  const [other] = counts.find(([, count]) => count !== 1) ?? [];
  if (other) throw new Unread(`struct ${other}`, ": a structure has one object here");
  const isObject = (it) => structs.some(({ name }) => name === it.type);
  return variables.map((it) => (isObject(it) ? writeObject(it, items, taken) : declare(it, [...items, ...variables])));
}

/** Returns code without the paths of its own modules before functions and names in capitals: no two of these have one name. */
function shortenPaths(code) {
  const modules = [...code.matchAll(/\bmod\s{1,9}(\w{1,40})\s{0,9}\{/g)].map(([, name]) => name).slice(0, DEEPEST);
  const functions = new Set([...code.matchAll(/\bfn\s{1,9}(\w{1,40})/g)].map(([, name]) => name));
  const path = new RegExp(`(?<!::)\\b(?:(?:${["crate", "super", ...modules].join("|")})::)+([A-Za-z]\\w*)`, "g");
  return code.replace(path, (whole, name) => (/^[A-Z]/.test(name) || functions.has(name) ? name : whole));
}

/** Returns the names of the words of structures that are only those of a `bool`. */
function listTruths(structs) {
  const fields = structs.flatMap(({ body }) => splitArguments(body).map((it) => /(\w+)\s*:\s*([^]+)$/.exec(it) ?? []));
  const isTruth = (name) => fields.every(([, other, type]) => other !== name || /(?:^|::)(?:AtomicBool|bool)$/.test(type.trim()));
  return fields.map(([, name]) => name).filter((it) => it && isTruth(it));
}

/** Returns the object of the only structure, if this is a lock whose threads are not in the program, as a list. */
function listLoneLocks(structs, items, variables, code) {
  const [{ name: type }, second] = [...structs, {}];
  const methods = items.filter((it) => it.kind === "impl" && it.name === type).flatMap((it) => it.items);
  const isNamed = ([lock, unlock]) => [lock, unlock].every((name) => methods.some((it) => it.name === name));
  const maker = methods.find((it) => /^\(\s*\)/.test(it.signature));
  if (!type || second?.name || !maker || variables.some((it) => it.type === type) || !LOCKS.some(isNamed)) return [];
  const name = ["the_lock", "the_lock2"].find((it) => !new RegExp(`\\b${it}\\b`).test(code));
  return name ? [{ kind: "static", name, type, value: `${type}::${maker.name}()` }] : [];
}

/** Returns a program in C++ that does what one in Rust does; null if it starts no threads and has no functions. */
function translate(text) {
  const plain = shortenPaths(blankText(text)).replace(/(?<!\s)\s+(?=\.\w)/g, "");
  if (plain.replace(/\s+/g, " ").length > LONGEST) throw new Unread(plain.trim(), ": the program is long");
  const code = desugar(rewriteGenericLock(plain));
  const items = readItems(code.replace(QUESTION, ""));
  const [question = ""] = QUESTION.exec(code) ?? [];
  const functions = items.filter((it) => it.kind === "fn");
  const [starting, second] = functions.filter((it) => /\bspawn\s*\(/.test(it.body));
  if (second) throw new Unread(`fn ${second.name}`, ": another function starts threads, so leave out one");
  const variables = items.filter((it) => it.kind === "static" || it.kind === "const");
  const structs = items.filter((it) => it.kind === "struct");
  const starter = new Starter(new Set(items.map((it) => it.name)), structs.map((it) => it.name));
  if (starting) starter.readAll(starting.body, new Map());
  const isLone = !starting && functions.length === 0;
  const all = [...variables, ...starter.shared, ...(isLone ? listLoneLocks(structs, items, variables, code) : [])];
  checkNames(all, functions, structs);
  checkMain(functions, starting);
  checkNegations(code, all.filter((it) => /bool/i.test(it.type)).map((it) => it.name), listTruths(structs));
  const declared = declareAll(all, items, structs, starter.allTaken);
  const called = functions.filter((it) => it !== starting && it.name !== "main").map((it) => writeFunction(it, starter.allTaken));
  if (!starter.threads.length && !called.length && all.length === variables.length) return null;
  const results = starter.threads.flatMap((it, at) => it.results.map((name) => `int ${nameResult(name, at)};`));
  const program = [...declared, ...results, ...called, ...writeThreads(starter)].filter(Boolean).join("\n");
  checkQuestion(question, program);
  return question ? `${program}\n${question}` : program;
}

// What begins statements outside of functions, which are put into `main`.
const STARTED = /^(?:let\s+(?:mut\s+)?\w+\s*(?::[^=;]*)?=|(?:std\s*::\s*)?thread\s*::\s*(?:scope|spawn)\s*\()/m;
const MAIN = "fn main() { ";

/** Returns the threads in C++, and what starts them, if there are some. */
function writeThreads({ threads, words, asserted, reported }) {
  const started = threads.map((_, at) => `std::thread t${at}(P${at}); `).join("") + threads.map((_, at) => `t${at}.join(); `).join("");
  const [before, after] = [words, asserted.length ? asserted : reported].map((all) => all.map((it) => `${it}; `).join(""));
  return threads.length ? [...threads.map(writeThread), `int main() { ${before}${started}${after}}`] : [];
}

/** Returns the index in a text of the part with which a reason begins, or of its longest front that the text has; undefined if it names no part. */
function findPart(why, text) {
  const [, part] = /^`([^`]*)`/.exec(why) ?? [];
  const lengths = part === undefined ? [] : Array.from({ length: part.length }, (_, at) => part.length - at);
  const length = lengths.find((it) => text.includes(part.slice(0, it)));
  return part === undefined ? undefined : text.indexOf(part.slice(0, length ?? 0));
}

/** Returns a reason in which mutexes are those of the program. */
function nameGuards(why) {
  return why.replace(/std::lock_guard<std::mutex> (\w*)(?:\(\w+_lock\))?/g, "let $1").replace(/\b(\w+)_lock\.(?:un)?lock\(\)/g, "$1.lock()");
}

/**
 * Returns the x86 test of a program in Rust, or why it is not rewritten, as `rewriteProgram` does of one in C++; null if it has no threads.
 * @param {string} text
 * @returns {object | null}
 */
export function rewriteRust(text) {
  const test = rewriteItems(text);
  const { index } = STARTED.exec(text) ?? {};
  const isInside = text.slice(0, index).split("{").length > text.slice(0, index).split("}").length;
  if (test?.made || index === undefined || isInside || /\bfn\s+main\b/.test(text) || /\bfn\s/.test(text.slice(index))) return test;
  const { index: at, ...other } = rewriteItems(`${text.slice(0, index)}${MAIN}${text.slice(index)}\n}\n`) ?? {};
  if (!other.made && !other.why) return test;
  return { ...other, index: at === undefined || at < index ? at : Math.max(at - MAIN.length, index) };
}

/** Returns what `rewriteRust` does of a program whose statements are in functions. */
function rewriteItems(text) {
  try {
    const program = translate(text);
    if (!program) return null;
    const test = rewriteProgram(program);
    if (test.made) return { ...test, made: test.made.replace(/\b(\w+?)_of_P\d\b/g, "$1"), program };
    // The part is written in C++.
    const type = WIDE_TYPE.exec(text)?.[0];
    const named = type ? test.why.replace(/^`(?:(?:atomic_)?s?size_t|u?int64_t|long)`/, `\`${type}\``) : test.why;
    const why = nameGuards(named.replace(/,? ?\bstd::memory_order_\w*/g, "").replace(/\bauto /g, "let "));
    return { why, index: findPart(why, text), program };
  } catch (error) {
    // Types with parameters, and structures, may be of lists.
    const isOfType = error instanceof Unread && OF_TYPES.some((it) => error.message.endsWith(it));
    const [pointer] = (isOfType && /\bAtomicPtr\s*<[^;{}\n]*?>+/.exec(blankText(text))) || [];
    if (pointer) return { why: `\`${pointer}\`${OF_POINTERS}`, index: text.indexOf(pointer) };
    if (error instanceof Unread) return { why: nameGuards(error.message), index: findPart(nameGuards(error.message), text) };
    throw error;
  }
}
