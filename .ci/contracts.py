"""The public functions of the crates with their contracts, as the sources have them."""
import os
import re

ROOT = os.path.dirname(os.path.dirname(os.path.realpath(__file__)))

IMPORT = re.compile(r"^\s*(?:unfoldable )?(?:pub |ghost )*use Rattle\.(\w+)\.specs\.([\w.]+)\.\{([^}]*)\}", re.M)
CLAUSE = re.compile(r"\s*(requires|ensures|ghost)\b\*?\s*(\w*)")
# the name of a clause that has none
UNNAMED = "it"


def read(path):
    with open(path, encoding="utf-8") as it:
        return it.read()


def imports(text):
    """Returns what each word that a text brings in stands for: a file of specs/, and a word there."""
    found = {}
    for crate, module, words in IMPORT.findall(text):
        if not module.startswith("declared."):
            for word in filter(None, (it.strip() for it in words.split(","))):
                name, _, other = word.partition(" as ")
                found[other or name] = (f"{crate}/specs/{module}", name)
    return found


class Crate:
    """A line of crates.txt: a crate, the crates that it stands on, and what the comment says is proved of it, by which function."""

    def __init__(self, line):
        front, _, comment = line.partition("#")
        name, _, names = front.partition(":")
        self.name, self.needs, self.comment = name.split()[0], names.split(), comment.strip()
        self.proved, self.function = re.fullmatch(r"(.*?)(?:: (\S+))?", self.comment).groups()
        self.is_tests = self.name.endswith("_tests")
        root = f"{ROOT}/crates/{self.name}/src"
        self.root = next(it for it in (f"{root}/lib.rt", f"{root}/main.rt") if os.path.isfile(it))

    def about(self):
        """Returns the first sentence of the crate's `//!`."""
        return first_sentence(re.findall(r"(?m)^//! ?(.*)$", read(self.root)))


def crate_lines():
    """Returns the crates of the repository, from the bytes up."""
    return [Crate(it) for it in read(f"{ROOT}/crates.txt").split("\n") if re.match(r"\w+[^#]*:", it)]


def crates():
    """Returns the names of the crates, from the bytes up."""
    return [it.name for it in crate_lines()]


def first_sentence(lines):
    """Returns the first sentence of a comment: its words up to a full stop, or to an empty line."""
    text = " ".join("\n".join(lines).split("\n\n")[0].split())
    return re.sub(r":$", ".", re.split(r"(?<=[.!?]) (?=[A-Z\[`])", text)[0])


class Function:
    """A public function of a file, with its comment, and the text of its clauses by name."""

    def __init__(self, name, comment):
        self.name, self.about, self.clauses, self.kinds = name, first_sentence(comment), {}, {}

    def names(self, kind):
        """Returns the names of the clauses of a kind, in their order."""
        return [it for it in self.clauses if kind in self.kinds[it]]

    def add(self, kind, name, text):
        self.clauses[name] = self.clauses.get(name, "") + text
        self.kinds.setdefault(name, set()).add(kind)


def functions(text, public):
    """Yields each public function of a file."""
    of, function, name, comment = None, None, None, []
    for line in text.split("\n"):
        head = re.match(r"(?:unsafe )?(?:impl|pub trait)\b.*?(\w+)(?:<[^{]*>)?\s*(?:where.*)?\{$", line)
        if head:
            of = re.sub(r"<.*", "", re.sub(r"^(?:impl|pub trait)(?:<[^>]*>)?\s+(?:.* for )?", "", line)).strip(" {").partition(":")[0]
        if line == "}":
            of = None
        start = re.match(r"(\s*)(pub )?(?:const )?fn (\w+)", line)
        if start:
            is_seen = (of in public) if start[1] else bool(start[2]) and start[3] in public
            is_seen = is_seen and (bool(start[2]) or bool(re.search(rf"pub trait {of}\b", text)))
            function, name = Function(f"{of}::{start[3]}" if start[1] else start[3], comment) if is_seen else None, None
        elif function and CLAUSE.match(line):
            kind, name = CLAUSE.match(line).groups()
            name = name or UNNAMED
            function.add(kind, name, line.partition("{")[2])
        elif function and name and not re.match(r"\s*(\{|\}|//)", line):
            function.add("more", name, "\n" + line)
        note = re.match(r"\s*/// ?(.*)$", line)
        comment = comment + [note[1]] if note else comment if re.match(r"\s*#\[", line) else []
        if function and (line.strip() in ("{", "{}", "}") or line.rstrip().endswith(";")):
            yield function
            function = None


def trait_laws(text, public):
    """Yields each function of a trait that a public type implements under laws or clauses of its own: its names in the traits that std has, and
    ours. `own` are the names of its clauses beyond the trait's."""
    for trait, of, body in re.findall(r"(?ms)^impl(?:<[^{]*?>)? ([\w:]+)[^{]*? for (\w+)[^{]*\{\n(.*?)^\}", text):
        laws = [it for it in re.findall(r"(?m)^    ghost (\w+) =", body) if it not in ("Value", "view", "invariant")]
        for part in re.split(r"(?m)^    fn ", body)[1:] if of in public else []:
            name = re.match(r"\w+", part)[0]
            function = Function(f"{of}::{name}", [])
            function.of, function.trait, function.laws = of, trait.split("::")[-1], laws
            function.own = [it or UNNAMED for it in re.findall(r"(?m)^        ensures\b *(\w*)", part.split("\n    {")[0])]
            for law in laws + function.own:
                function.add("ensures", law, "")
            if function.clauses:
                yield function


def public_words(root):
    """Returns the words that the root of a crate makes public."""
    text = re.sub(r"(?m)//.*$", "", read(root))
    uses = re.findall(r"\w+", re.sub(r"\w+::", "", " ".join(re.findall(r"pub use ([^;]*);", text))))
    return {*uses, *re.findall(r"(?m)^pub (?:trait|struct|enum|fn) (\w+)", text)}


def public_functions(find=functions):
    """Yields each public function with its crate, its file, and the words that this file brings in."""
    for crate in crates():
        root = f"{ROOT}/crates/{crate}/src/lib.rt"
        if crate.endswith("_tests") or not os.path.isfile(root):
            continue
        public = public_words(root)
        for at, _, files in sorted(os.walk(f"{ROOT}/crates/{crate}/src")):
            for file in sorted(files):
                text = read(f"{at}/{file}")
                for function in find(text, public):
                    yield crate, os.path.relpath(f"{at}/{file}", ROOT), function, imports(text)
