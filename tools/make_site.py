#!/usr/bin/env python3
"""Makes the workbench for any browser: a folder of files, or one file, that works from a disk, from any web server and without a network.

    python3 tools/make_site.py FOLDER [--module FILE]... [--archive FILE] [--address URL]
    python3 tools/make_site.py FILE.html --one-file [--module FILE]... [--address URL]

The page is that of web/, over the proved workbench as a WebAssembly module: those that tools/build_wasm.py has made, or each FILE. Of several a
browser uses the first that it takes. There is no server: the module runs in a worker of the page. All examples are in it. A folder also has the
documents of tools/page/documents.py, whose links open on the page what they show, the lab's quizzes, and its slides if the program is built. Nothing
is loaded from elsewhere. With --archive a folder also has an archive of tools/pack.py, so that readers get the programs and the tools where they read
of them. With --address the site says where the repository is published.

A page that was opened as a file may load neither JSON nor modules of JavaScript. So those of web/ are joined to one classic script each for
the page and its worker, which are packed together, since they share modules, with the style sheet that nothing needs before them; the hints on
faults, tables and modules come in scripts too, all packed as gzip in letters. In a folder the page asks for a module as soon as it has the tables,
for the second only if the browser does not take the first, and for the hints after its first answer.
"""
from __future__ import annotations

import base64
import collections
import functools
import hashlib
import itertools
import json
import os
import re
import shutil
import string
import sys
import zlib
from collections.abc import Sequence
from typing import Dict

sys.dont_write_bytecode = True
import make_quiz
import make_slides
from lab import quiz, tints
from page import documents, letters, origin, web_files
from shared import command, start
from shared.literal import format_literal

WEB = f"{web_files.HOME}/web"
IMPORT = re.compile(r'^import (?:\* as (\w+)|\{([^}]*)\}) from "\./(\w+)\.js";\n', re.M)
# Comments on lines of their own, which the scripts are made without.
COMMENT = re.compile(r"^[ \t]*(?://[^\n]*|/\*\*.*?\*/)\n", re.M | re.S)
# What a site is made without, so that less has to be loaded: blanks at the start of lines, lines without letters, and comments of styles.
INDENT = re.compile(r"^\s+", re.M)
STYLE_COMMENT = re.compile(r"/\*.*?\*/\n?", re.S)
# The blanks and line ends of a style that mean nothing: around braces, and after a line's last semicolon.
STYLE_BLANK = re.compile(r"\s*([{}])\s*|(;)\s*\n\s*")
# And what else says nothing outside of its strings: a blank after a colon or a comma, or around `>`, the 0 before a decimal point, the last semicolon.
STYLE_STRING = re.compile(r'("[^"]*")')
# The value of an attribute in a selector, which needs no quotes if it is a name.
STYLE_NAME = re.compile(r'="([A-Za-z][\w-]*)"\]')
# A property of the style sheet's own.
STYLE_PROPERTY = re.compile(r"(?<![\w-])--[a-z][\w-]*")
STYLE_SPARE = re.compile(r"(?<=[:,]) +| *([>/]) *|(?<=\)) (\*) (?=[\d.])|(?<![\w.])0(?=\.\d)|;(?=\})| +(?=!important)")
STYLE_ELEMENT = re.compile(r"::(?=(?:before|after)\b)")
EXPORT = re.compile(r"^export ((?:async )?(?:function\*?|class|const) (\w+))", re.M)
# The style sheets of the page: that which browsers wait for, and that which is packed with the page's code.
STYLES = ("style.css", "views.css")
# The module of the hints on faults, and what it exports.
HINTS = "hints"
# What is between the parts of the page's code, when they are packed.
BETWEEN_PARTS = "\0"
# Unpacks the parts of the page's code in the browser, keeps the worker's script, adds the second style sheet, and runs the page's script.
UNPACKING = """"use strict";
(async () => {
const bytes = globalThis.site.bytesOf(PACKED);
const text = await new Response(new Blob([bytes]).stream().pipeThrough(new DecompressionStream("gzip"))).text();
const [shared, page, worker, styles] = text.split("\\0");
globalThis.site.worker = shared + worker;
const style = document.createElement("style");
style.textContent = styles;
document.head.append(style);
const script = document.createElement("script");
script.text = shared + page;
document.body.append(script);
})();
"""
# Asks for the first module before the page's own code is there. The page waits for `site.coming`.
FETCHING = """globalThis.site.coming = new Promise((resolve, reject) => {
const script = document.createElement("script");
script.src = FILE;
script.onload = resolve;
script.onerror = () => reject(new Error(FILE + " does not come"));
document.head.append(script);
});
globalThis.site.coming.catch(() => null);
"""
# A module of WebAssembly begins with a magic number and a version; after them are its sections, of which custom ones have this number.
WASM_HEAD = 8
CUSTOM_SECTION = 0
# The number of tests of each quiz of a site.
QUIZ_TESTS = 10
# The page of a site, as its documents link to it.
PAGE = "index.html"
# The rule for a page of files: it may send nothing by a network.
POLICY = "connect-src 'none'; object-src 'none'; frame-src 'none'; base-uri 'none'; form-action 'none'"


class NoSite(Exception):
    """The site can't be made, and why."""


# What of a script is as it is: quoted texts, and regular expressions, which follow no operand; a template begins with its quote.
SCRIPT_LITERAL = re.compile(
    r""""(?:\\.|[^"\\\n])*"|'(?:\\.|[^'\\\n])*'|`|(?:(?<=return )|(?<![\w)\]}"'`] )(?<![\w)\]}"'`]))"""
    r"/(?:\\.|\[(?:\\.|[^\]\\\n])*\]|[^/\\\n\[])+/[a-z]*"
)
# Blanks beside what parts words by itself.
SCRIPT_SPARE = re.compile(r" ?([=,:;(){}\[\]?<>|&*]+) ?")
# The ends of lines at which no statement can end, or one has ended.
SCRIPT_LINE_END = re.compile(r"(?<=[;{},(\[=?:&|>])\n")

# The site's files: for each name its text.
Files = Dict[str, str]


def read_source(name: str, web: str) -> str:
    """Returns the text of a file of the folder of the page's sources."""
    with open(f"{web}/{name}", encoding="utf-8") as file:
        return file.read()


# Modules of JavaScript, put together to one script.


def bundle_module(entry: str, web: str) -> str:
    """Returns one classic script that does what a module and all its imports do. Raises NoSite if it has what no script inside the page may have."""
    return '"use strict";\n' + join_modules(collect_modules(entry, web), entry)


def bundle_page(web: str) -> tuple[str, str, str, str]:
    """Returns the code of the page in four parts: what the page and its worker share, with which the scripts of both begin; the rest of the page's
    script; the rest of the worker's; and the script of the hints, which the page runs later. Raises NoSite as `bundle_module` does.
    """
    of_page, of_worker, of_hints = (collect_modules(entry, web) for entry in ("main", "worker", HINTS))
    shared = {name: text for name, text in of_page.items() if name in of_worker}
    rest_of = lambda modules, others: {name: text for name, text in modules.items() if name not in others}
    begin = '"use strict";\n' + join_modules(shared, "main")
    hints = '"use strict";\n' + join_modules(rest_of(of_hints, of_page), HINTS) + f"globalThis.site.{HINTS} = {HINTS};\n"
    return begin, join_modules(rest_of(of_page, shared), "main"), join_modules(rest_of(of_worker, shared), "worker"), hints


def collect_modules(entry: str, web: str) -> dict[str, str]:
    """Returns a module and all its imports, each after those that it imports. Raises NoSite if a module imports itself."""
    done: dict[str, str] = {}
    add_module(entry, web, done, (), find_repeated_names(web))
    return done


def find_repeated_names(web: str) -> set[str]:
    """Returns the names that more than one module exports."""
    files = sorted(it for it in os.listdir(web) if it.endswith(".js"))
    counts = collections.Counter(name for file in files for _, name in EXPORT.findall(read_source(file, web)))
    return {name for name, count in counts.items() if count > 1}


def join_modules(modules: dict[str, str], entry: str) -> str:
    """Returns modules that an entry imports as one text. Raises NoSite if it has what no script inside the page may have."""
    text = INDENT.sub("", COMMENT.sub("", "".join(modules.values())))
    if re.search(r"</script|<!--|^\s*(?:import|export)\b|\0", text, re.M | re.I):
        raise NoSite(f"web/{entry}.js, or what it imports, has what no script inside the page may have, or an import of another form")
    return text


def add_module(name: str, web: str, done: dict[str, str], importers: tuple[str, ...], repeated: set[str]) -> None:
    """Adds a module after those that it imports. Each is the body of a function that returns what it exports; a name that is not among the `repeated` is
    then one of the whole script, so that no module has to take it. `importers` are the modules that led to it. Raises NoSite if a module imports itself.
    """
    if name in importers:
        raise NoSite(f"web/{name}.js imports itself")
    if name in done:
        return
    text = read_source(f"{name}.js", web)
    for _, _, other in IMPORT.findall(text):
        add_module(other, web, done, (*importers, name), repeated)
    exported = [it for _, it in EXPORT.findall(text)]
    body = EXPORT.sub(r"\1", IMPORT.sub(lambda it: rewrite_import(it, repeated), text))
    made = f"const from_{name} = (() => {{\n{body}return {{ {', '.join(exported)} }};\n}})();\n"
    done[name] = made + make_taking_statement([it for it in exported if it not in repeated], name)


def make_taking_statement(names: list[str], module: str) -> str:
    """Returns the statement that takes names from what a module's function returned; "" if there is no name."""
    return f"const {{ {', '.join(names)} }} = from_{module};\n" if names else ""


def rewrite_import(statement: re.Match[str], repeated: set[str]) -> str:
    """Returns the statement in place of an import: of names only those that are `repeated` are taken, since the whole script has the others."""
    namespace, names, module = statement.groups()
    if namespace:
        return f"const {namespace} = from_{module};\n"
    return make_taking_statement([it for it in re.findall(r"\w+", names) if it in repeated], module)


def find_template_end(text: str, begin: int) -> int:
    """Returns the place after the template of a script that begins at a place. Code within it may have templates, too."""
    at, depth = begin + 1, 0
    while depth or text[at] != "`":
        if text[at] == "\\":
            at += 2
        elif depth == 0:
            depth += text.startswith("${", at)
            at += 2 if depth else 1
        else:
            literal = SCRIPT_LITERAL.match(text, at)
            depth += (text[at] == "{") - (text[at] == "}")
            at = (find_template_end(text, at) if literal[0] == "`" else literal.end()) if literal else at + 1
    return at + 1


def shorten_script(text: str) -> str:
    """Returns a script that says the same with fewer bytes: without blanks beside punctuation and ends of lines after it, except in literals."""
    shorten = lambda code: SCRIPT_LINE_END.sub("", SCRIPT_SPARE.sub(r"\1", code))
    parts, at = [], 0
    while literal := SCRIPT_LITERAL.search(text, at):
        end = find_template_end(text, literal.start()) if literal[0] == "`" else literal.end()
        parts += [shorten(text[at : literal.start()]), text[literal.start() : end]]
        at = end
    return "".join([*parts, shorten(text[at:])])


# The files.


def pack_bytes(content: bytes) -> str:
    """Returns bytes as a text: gzip in letters, which is the same for the same bytes."""
    # The tenth of a percent that the larger memory of zlib saves is worth a sentence of the page.
    compressor = zlib.compressobj(9, zlib.DEFLATED, 31, 9)
    return letters.encode(compressor.compress(content) + compressor.flush())


def remove_names(module: bytes) -> bytes:
    """Returns a module of WebAssembly without the names of its functions, the custom section `name`, which browsers do not need. Other bytes are
    returned as they are.
    """
    kept, at = [module[:WASM_HEAD]], WASM_HEAD
    while module.startswith(b"\0asm") and at < len(module):
        size, content = parse_leb128(module, at + 1)
        end = content + size
        length, name = parse_leb128(module, content)
        is_names = module[at] == CUSTOM_SECTION and module[name : name + length] == b"name"
        kept.append(b"" if is_names else module[at:end])
        at = end
    return b"".join(kept) if at == len(module) else module


def parse_leb128(module: bytes, at: int) -> tuple[int, int]:
    """Returns the number in the format LEB128 that begins at the index `at` of a module, and the index after it."""
    number, shift = 0, 0
    while at < len(module):
        number |= (module[at] & 0x7F) << shift
        shift, at = shift + 7, at + 1
        if module[at - 1] < 0x80:
            break
    return number, at


def make_unpacking_script(parts: Sequence[str], style: str) -> str:
    """Returns a script that unpacks three parts of the page's code and its second style sheet and runs it: packed they are a third as long."""
    return UNPACKING.replace("PACKED", format_literal(pack_bytes(BETWEEN_PARTS.join([*map(shorten_script, parts), style]).encode())))


def make_scripts(modules: list[bytes], is_kept: bool, web: str, about: origin.About, listed: list[list[str]]) -> Files:
    """Returns the scripts of the page, in their order: what `site` is, which web/supplies.js takes, the page's own code, that of the hints, and the
    modules. `listed` has the documents that the page names.
    """
    tables = {"examples": web_files.list_families(), "sentences": web_files.list_sentences()}
    names = [f"workbench{number}.js" for number, _ in enumerate(modules, 1)]
    site = {
        "tables": pack_bytes(json.dumps(tables).encode()),
        "isKept": is_kept,
        "origin": about.origin,
        "archive": about.archive and about.archive._asdict(),
        "documents": listed,
        "modules": [],
        "numberOfModules": len(modules),
        # In a folder the page asks itself for each module after the first; in one file they are after the page.
        "moduleFiles": ["", *names[1:]] if is_kept else [],
    }
    first = FETCHING.replace("FILE", format_literal(names[0])) if is_kept and names else ""
    begin = f"globalThis.site = {format_literal(site)};\nglobalThis.site.bytesOf = {letters.DECODER};\n"
    *parts, hints = bundle_page(web)
    packed = format_literal(pack_bytes(shorten_script(hints).encode()))
    scripts_by_name = {
        "tables.js": begin + first,
        "page.js": make_unpacking_script(parts, read_styles(web)[1]),
        f"{HINTS}.js": f"globalThis.site.packedHints = {packed};\n",
    }
    for name, module in zip(names, modules):
        scripts_by_name[name] = f"globalThis.site.modules.push({format_literal(pack_bytes(remove_names(module)))});\nglobalThis.site.came?.();\n"
    return scripts_by_name


def split_page(web: str) -> tuple[str, str]:
    """Returns the page, without its scripts and styles: a front part and a back part. Raises NoSite if web/index.html has another form."""
    html = read_source("index.html", web)
    policy = f'<meta http-equiv="Content-Security-Policy" content="{POLICY}">\n'
    links = "".join(f'<link rel="stylesheet" href="{name}">\n' for name in STYLES)
    front, separator, back = html.partition('<link rel="icon" href="icon.svg">\n' + links)
    script = '<script type="module" src="main.js"></script>\n'
    if not separator or script not in back:
        raise NoSite("web/index.html does not have its icon, its styles and its script where they are looked for")
    return front + policy, back.replace(script, "", 1)


def read_styles(web: str) -> list[str]:
    """Returns the two style sheets, without what only their writers need."""
    scripts = "".join(read_source(name, web) for name in sorted(os.listdir(web)) if name.endswith(".js"))
    styles = BETWEEN_PARTS.join(shorten_style(read_source(name, web)) for name in STYLES)
    return rename_properties(styles, set(STYLE_PROPERTY.findall(scripts))).split(BETWEEN_PARTS)


def rename_properties(style: str, kept: set[str]) -> str:
    """Returns a style sheet in which each property of its own has a short name, except those that scripts name."""
    counts = collections.Counter(STYLE_PROPERTY.findall(style))
    names = sorted(set(counts) - kept, key=lambda it: (-counts[it], it))
    letters_of = itertools.chain.from_iterable(itertools.product(string.ascii_lowercase, repeat=count) for count in (1, 2))
    free = (name for name in ("--" + "".join(it) for it in letters_of) if name not in kept)
    short_by_name = dict(zip(names, free))
    return STYLE_PROPERTY.sub(lambda it: short_by_name.get(it[0], it[0]), style)


def shorten_style(text: str) -> str:
    """Returns a style sheet that says the same with fewer bytes: browsers wait for all of it before they show anything."""
    shorter = STYLE_BLANK.sub(r"\1\2", INDENT.sub("", STYLE_COMMENT.sub("", text)))
    parts = STYLE_STRING.split(STYLE_NAME.sub(r"=\1]", shorter))
    shorten = lambda it: STYLE_ELEMENT.sub(":", STYLE_SPARE.sub(lambda match: match[1] or match[2] or "", it).replace("; ", ";").replace("transparent", "#0000"))
    return "".join(shorten(part) if index % 2 == 0 else part for index, part in enumerate(parts))


def make_one_file(modules: list[bytes], web: str, about: origin.About) -> str:
    """Returns the site as one file. Raises NoSite if the style has what none inside the page may have."""
    front, back = split_page(web)
    icon = base64.b64encode(read_source("icon.svg", web).encode()).decode()
    style = read_styles(web)[0]
    if "</style" in style:
        raise NoSite("web/style.css has what no style inside the page may have")
    head = f'<link rel="icon" href="data:image/svg+xml;base64,{icon}">\n<style>\n{style}</style>\n'
    inner = "".join(f"<script>\n{it}</script>\n" for it in make_scripts(modules, False, web, about, []).values())
    body, end, rest = back.rpartition("</body>")
    return front + head + body + inner + end + rest


@functools.lru_cache(maxsize=None)
def make_quizzes() -> Files:
    """Returns the quizzes of a site: for each file its text."""
    make_one = lambda seed: make_quiz.make_page(QUIZ_TESTS, seed, quiz.make_report_by_plain, PAGE, documents.QUIZZES)
    return {file: make_one(seed) for seed, file in documents.QUIZZES.items()}


def make_documents(web: str, about: origin.About, slides: str | None) -> Files:
    """Returns the documents of a site, with their style and their script, the quizzes, and the slides if there are some: for each file its text.
    Raises NoSite if web/style.css has another form.
    """
    match = tints.COLOUR_RULES.search(read_source("style.css", web))
    if match is None:
        raise NoSite("web/style.css does not begin with the colours by light and by dark")
    style = shorten_style(match[0] + read_source(documents.STYLE, web))
    pages = documents.make_pages(POLICY, about, make_quizzes(), slides)
    return {**pages, documents.STYLE: style, documents.SCRIPT: read_source(documents.SCRIPT, web)}


def make_folder(modules: list[bytes], web: str, about: origin.About, has_documents: bool = True, slides: str | None = None) -> Files:
    """Returns the site as files: for each name its text; with the documents, or without them for a class that is to find the answers."""
    front, back = split_page(web)
    files = {"icon.svg": read_source("icon.svg", web), "style.css": read_styles(web)[0]}
    listed = documents.list_documents(slides is not None) if has_documents else []
    files.update(make_scripts(modules, True, web, about, listed))
    if has_documents:
        files.update(make_documents(web, about, slides))
    head = '<link rel="icon" href="icon.svg">\n<link rel="stylesheet" href="style.css">\n'
    head += "".join(f'<script defer src="{name}"></script>\n' for name in ("tables.js", "page.js"))
    files["index.html"] = front + head + back
    edition = hashlib.sha256(json.dumps(files).encode()).hexdigest()[:16]
    names = ["./", *sorted(files)]
    files["offline.js"] = f"const edition = {format_literal(edition)};\nconst files = {format_literal(names)};\n" + read_source("offline.js", web)
    return files


def write_file(path: str, text: str) -> None:
    """Writes a file."""
    with open(path, "w", encoding="utf-8", newline="\n") as file:
        file.write(text)


def make_site(
    out: str, modules: list[bytes], is_one_file: bool = False, web: str = WEB, address: str | None = None, archive: str | None = None
) -> None:
    """Makes a site of modules, each by its bytes; one of files carries the archive, if one is given. Raises NoArchive if that is none of these sources."""
    about = origin.describe_site(address, archive)
    if is_one_file:
        write_file(out, make_one_file(modules, web, about))
        return
    files = make_folder(modules, web, about, slides=make_slides.make_page_if_built(PAGE))
    os.makedirs(out, exist_ok=True)
    for name, text in files.items():
        write_file(f"{out}/{name}", text)
    if archive and about.archive:
        shutil.copyfile(archive, f"{out}/{about.archive.file}")


# The command line.


def read_modules(paths: list[str]) -> list[bytes]:
    """Returns the bytes of the modules: those that are named, or the one that is built. Raises NoSite if there is none, or a file is none."""
    if not paths:
        built = web_files.read_modules()
        if not built:
            raise NoSite("there is no module of these sources: run tools/build_wasm.py, or name one by --module FILE")
        return built
    modules = []
    for path in paths:
        with open(path, "rb") as file:
            modules.append(file.read())
        if not modules[-1].startswith(b"\0asm"):
            raise NoSite(f"{path} is no WebAssembly module")
    return modules


def main() -> int:
    """Runs the command that the arguments describe. Returns the exit status."""
    reader = command.Reader(__doc__)
    reader.add_argument("out", metavar="FOLDER")
    reader.add_argument("--one-file", action="store_true")
    reader.add_argument("--module", action="append", default=[], metavar="FILE")
    reader.add_argument("--archive", metavar="FILE")
    reader.add_argument("--address", metavar="URL")
    arguments = reader.read()
    if arguments.one_file and arguments.archive:
        reader.error("a site of one file carries no archive")
    try:
        make_site(arguments.out, read_modules(arguments.module), arguments.one_file, address=arguments.address, archive=arguments.archive)
    except (NoSite, origin.NoArchive, OSError) as why:
        print(f"make_site: {why}", file=sys.stderr)
        return 1
    return 0


if __name__ == "__main__":
    sys.exit(start.run(main))
