"""What the files of crates/ declare, and which of it a text of theirs cites: names, looked up by the imports of the file."""
import re
from dataclasses import dataclass
from functools import lru_cache
from pathlib import Path

TOP = Path(__file__).resolve().parent.parent.parent
CRATES = TOP / "crates"


@dataclass(frozen=True)
class Definition:
    """What a file declares under one name, with the comment above it, which `lines` counts too."""

    path: Path
    name: str
    comment: str
    lines: int
    text: str


@dataclass
class File:
    """What a file declares, by names, also those of constructors; the modules that its imports take names from; and those that it
    calls by another name."""

    path: Path
    declared: dict
    imported: dict
    renamed: dict


WORD = re.compile(r"(?<![\w.'])[^\W\d][\w']*")
QUALIFIED = re.compile(r"(?<![\w.'])([^\W\d]\w*)\.([^\W\d][\w']*)")
IMPORT = re.compile(r"^\s*(?:unfoldable )?(?:pub )?(?:ghost )?use Rattle\.([\w.]+?)(?:\.\{(.*)\}| as (\w+))?;?$", re.M)
RUST_IMPORT = re.compile(r"^use (\w+(?:::\w+)*)::(?:\{(.*?)\}|(\w+));", re.M | re.S)
HEAD = re.compile(r"(?:(?:abbrev|unfoldable|pub|record|data) )+([^\s:]+)|([\w']+) : ")
ITEM = re.compile(r"pub(?:\([a-z]+\))? (?:ghost )?(?:const|enum|struct|trait|type) (\w+)")
DECLARED = re.compile(r"(?:declared|contracts)\.([\w.]+)$")


@lru_cache(maxsize=None)
def crates():
    lines = (TOP / "crates.txt").read_text().splitlines()
    return [line.split(":")[0].split()[0] for line in lines if line.strip() and not line.startswith("#")]


def crate_of(path):
    return path.relative_to(CRATES).parts[0]


def uncommented(lines, mark):
    return "\n".join(line.split(mark)[0] for line in lines)


def commented(above, mark):
    """The words of the comment that ends a list of lines, and how many lines it has. A heading, `-- ---- ..`, is no comment."""
    taken = []
    for line in reversed(above):
        if not line.startswith(mark) or line.startswith("-- ----"):
            break
        taken.insert(0, line.removeprefix(mark).strip())
    return " ".join(" ".join(taken).split()), len(taken)


def unwrapped(lines):
    """Each line with the line of the module without a name that it stands in, if it does; such a module is indented by two."""
    module = ""
    for line in lines:
        if line[:1].strip():
            module = line if line.startswith("module _") else ""
        yield line.removeprefix("  ") if module else line, module


def blocks_of(path):
    """Each definition of a file of specs/: the lines above it, its own, and that of its module. It goes to the next head, comment or
    import at the margin."""
    above, block, within = [], [], ""
    for line, module in [*unwrapped(path.read_text().splitlines()), ("-- the end", "")]:
        head = HEAD.match(line)
        begins = head and (head[1] or not block or not block[-1].strip())
        apart = line.startswith(("--", "use ", "pub use ", "pub mod ", "infix", "module _"))
        if block and (begins or apart):
            yield above, block, within
            above, block = [], []
        if begins and not apart:
            block, within = [line], module
        elif block:
            block.append(line)
        elif apart or not line.strip():
            above.append(line)
        else:
            raise SystemExit(f"tools/trust: {path.relative_to(TOP)}: what does this line belong to? {line}")


def definitions_of_specs(path):
    """The definitions of a file of specs/."""
    found = []
    for above, block, module in blocks_of(path):
        comment, length = commented(above, "-- ")
        head, lines = HEAD.match(block[0]), [line for line in block if line.strip()]
        found.append(Definition(path, head[1] or head[2], comment, length + len(lines), uncommented([*lines, module], "--")))
    return found


def block_from(lines, at):
    """The lines of an item of a source: to the brace at the margin, or else to its semicolon."""
    braced, end = lines[at].endswith("{"), at
    while not (lines[end].startswith("}") if braced else lines[end].endswith(";")):
        end += 1
    return lines[at : end + 1]


def definitions_of_source(path):
    """The constants and types that a source declares. What contracts see of a type that has a model is the type of its values."""
    lines, found = path.read_text().splitlines(), []
    for at, line in enumerate(lines):
        item = ITEM.match(line)
        if not item:
            continue
        above = lines[:at]
        while above and above[-1].startswith("#["):
            above.pop()
        comment, length = commented(above, "///")
        block = block_from(lines, at)
        head = f"impl Model for {item[1]} {{"
        model = block_from(lines, lines.index(head)) if head in lines else []
        seen = [it for it in model if re.match(r"    ghost (Value|also_owns) =", it)]
        text = seen if "ghost Value" in "".join(seen) else block + seen
        found.append(Definition(path, item[1], comment, length + len(block) + len(model), uncommented(text, "//")))
    return found


def existing(folder, parts, ending):
    """The file of the longest front of a module's name."""
    tries = [folder / ("/".join(parts[:n]) + ending) for n in range(len(parts), 0, -1)]
    return next((path for path in tries if path.exists()), folder / f"lib{ending}")


def target_of(module, name):
    """Where a name stands that is imported from a module: a file, and the name there. None for the modules of a library."""
    crate, _, rest = module.partition(".specs.")
    if crate not in crates():
        return None
    declared = DECLARED.match(rest)
    if not declared:
        return existing(CRATES / crate / "specs", rest.split("."), ".antt"), name
    parts = declared[1].split(".")
    types = [part for part in parts if part[0].isupper()]
    return existing(CRATES / crate / "src", parts, ".rt"), name if types[:1] in ([], ["TheConstants"]) else types[0]


def names_in(text):
    """The names of a list of imports, each with the one that it has here, if it says so."""
    return re.findall(r"([^\s,]+)(?: as ([^\s,]+))?", text)


def constructors(definition):
    return re.findall(r"^  ([\w']+) :", definition.text, re.M) if re.search(r"^pub data ", definition.text, re.M) else []


@lru_cache(maxsize=None)
def load(path):
    text = path.read_text()
    definitions = definitions_of_specs(path) if path.suffix == ".antt" else definitions_of_source(path)
    declared = {name: it for it in definitions for name in (it.name, *constructors(it))}
    imported, renamed = {}, {}
    for module, names, other in IMPORT.findall(text):
        if names:
            imported.update({here or name: (module, name) for name, here in names_in(names)})
        else:
            renamed[other or module.split(".")[-1]] = module
    return File(path, declared, imported, renamed)


@lru_cache(maxsize=None)
def sources_of(crate):
    """The constants and types that the sources of a crate declare, by name."""
    paths = sorted((CRATES / crate / "src").glob("**/*.rt"))
    return {it.name: it for path in paths for it in load(path).declared.values()}


@lru_cache(maxsize=None)
def imported_types(path):
    """What a source imports from sources, by name. A crate may hand on what its modules declare."""
    found = {}
    for module, names, name in RUST_IMPORT.findall(path.read_text()):
        crate, *parts = module.split("::")
        crate = crate_of(path) if crate in ("crate", "super") else crate
        if crate in crates():
            known = sources_of(crate) | load(existing(CRATES / crate / "src", parts, ".rt")).declared
            found.update({it: known[it] for it in re.findall(r"\w+", names) + [name] if it in known})
    return found


# ---- which definitions a text cites


def looked_up(module, name):
    """The definition of a name that is imported from a module, or None where it is a library's."""
    target = target_of(module, name)
    if target is None:
        return None
    found = resolved(load(target[0]), target[1])
    if found is None:
        raise SystemExit(f"tools/trust: {target[0].relative_to(TOP)} declares no {target[1]}, which is imported from there")
    return found


def resolved(file, name):
    """The definition that a name of a file means, or None where it is a library's, or a variable."""
    if name in file.declared:
        return file.declared[name]
    if name in file.imported:
        return looked_up(*file.imported[name])
    return imported_types(file.path).get(name) if file.path.suffix == ".rt" else None


def uses(text, words, name):
    """Whether a text with these words uses a name, which may be a sign, or leave holes for what stands between its signs."""
    return name in words if WORD.fullmatch(name) else all(sign in text for sign in name.split("◌"))


def cited(path, text):
    """The definitions that a text of a file cites, in the order in which it does, with repetitions."""
    file, words = load(path), WORD.findall(text)
    signs = [name for name in file.imported | file.declared if not WORD.fullmatch(name) and uses(text, words, name)]
    found = [resolved(file, name) for name in words + signs]
    found += [looked_up(file.renamed[name], it) for name, it in QUALIFIED.findall(text) if name in file.renamed]
    return [it for it in found if it]


def names_of_library(path, text):
    """The names of a library that a text of a file uses."""
    words = set(WORD.findall(text))
    imported = load(path).imported.items()
    return {name for name, (module, _) in imported if module.split(".")[0] not in crates() and uses(text, words, name)}
