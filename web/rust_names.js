// Gives the variables of a function in Rust names of their own, since a later one may have the name of an earlier one. Not proved.

const TOKENS = /[A-Za-z_]\w*|\d\w*|\.\.=?|::|[^]/g;
const NAME = /^[a-z_]\w*$/;
const NO_NAMES = new Set(["mut", "ref", "_"]);

/** Reads the tokens of code. `scopes` has the names of the variables in each block, and `declared` those that a statement declares. */
class Renamer {
  constructor(names, taken) {
    Object.assign(this, { scopes: [names], taken, counts: new Map(), depth: 0, declared: null });
  }

  /** Returns the name of a variable that is declared here: that in the program, if no other variable has it. */
  declare(name) {
    let own = name;
    for (let number = this.counts.get(name) ?? 2; this.taken.has(own); number += 1) {
      own = `${name}_${number}`;
      this.counts.set(name, number);
    }
    this.taken.add(own);
    this.declared.names.push([name, own]);
    return own;
  }

  /** Begins or ends a block, a parenthesis or a statement. */
  follow(token) {
    const { declared } = this;
    const isBegun = declared?.isLoop && token === "{" && declared.depth === this.depth;
    if ("([{".includes(token)) this.depth += 1;
    if (")]}".includes(token)) this.depth -= 1;
    if (token === "{") this.scopes.push(new Map(this.scopes.at(-1)));
    if (token === "}" && this.scopes.length > 1) this.scopes.pop();
    if (!isBegun && !(token === ";" && declared?.depth === this.depth)) return;
    declared.names.forEach(([name, own]) => this.scopes.at(-1).set(name, own));
    this.declared = null;
  }

  /** Returns what is written for a token, which others are before and after. */
  write(token, before, after) {
    const { declared } = this;
    if (token === "let" || token === "for") this.declared = { names: [], depth: this.depth, isLoop: token === "for", isPattern: true };
    else if (declared?.isPattern && /^(?:=|:|in|;)$/.test(token)) declared.isPattern = false;
    if (/^[([{}\]);]$/.test(token)) this.follow(token);
    if (!/^[A-Za-z_]/.test(token) || /^(?:\.|::|')$/.test(before) || /^(?:::|!|\()$/.test(after)) return token;
    if (declared?.isPattern && this.declared.isPattern && NAME.test(token) && !NO_NAMES.has(token)) return this.declare(token);
    return this.scopes.at(-1).get(token) ?? token;
  }
}

/**
 * Returns code of a function in which each variable has a name of its own.
 * @param {string} code
 * @param {Map<string, string>} names those of other variables that it uses by other names
 * @param {Set<string>} taken the names that other variables have
 * @returns {string}
 */
export function nameVariables(code, names, taken) {
  const renamer = new Renamer(new Map(names), new Set(taken));
  const tokens = code.match(TOKENS) ?? [];
  return tokens.map((it, at) => renamer.write(it, tokens[at - 1] ?? "", /^\s$/.test(tokens[at + 1] ?? "") ? "" : tokens[at + 1] ?? "")).join("");
}
