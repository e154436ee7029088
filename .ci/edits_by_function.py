"""Tries edits by the functions that they change. The whole check of a crate says no more of an edit than the check of these functions where that refuses
it, and takes minutes where this takes seconds. What is not refused here may still be refused elsewhere in the crate, so it is left to a whole check."""
import os
import pathlib
import re
import subprocess

from edit_sums import FUNCTION, TOKEN, Repository, body_of

REFUSED = "refused, as it must be"
END = re.compile(r"only=(\d+) proved=(\d+)")
NOTED = re.compile(r"(?:note: )?(?:\./)?(\S+?):\d+:\d+: (.*)")
# What is said of a text that can't be read, where an edit that only makes a statement false reads well.
UNREAD = re.compile(r"\berror\[|is not in scope|has no field|is no name|operand is missing|expected the end|cannot continue")
# A type whose methods follow, as `rt fmt` lays it out, and the name of its function.
IMPL = re.compile(r"^impl\b(?:<[^>]*>)? ?(?:[^{\n]* for )?&?(?:'\w+ )?(\w+)", re.M)
NAME = re.compile(r"\bfn (\w+)")
# A function without a proof of its own accord, and not since it calls one that has none.
FAILED = re.compile(r"fn \w+::(\S+): (?:not proved$|no proof: (?!it calls)).*")
# A name of no function, or of several.
STRANGE = re.compile(r"has no function `([^`]*)`|several functions are named `([^`]*)`")


def changed(text, folder):
    """The files that an edit changes, each with its new text and with where it changes, or None where it can't be applied."""
    path, old, texts, places = None, None, {}, []
    for line in text.splitlines():
        word, _, rest = line.partition(": ")
        if word == "file":
            path = rest.strip()
        elif word == "old":
            old = rest
        elif line.startswith("new:"):
            source = folder / path
            now = texts.get(path) or source.read_text("utf-8")
            if now.count(old) != 1:
                return None
            places.append((path, old))
            texts[path] = now.replace(old, line[len("new:") :].removeprefix(" "))
    return texts, places


def named(path, old, folder):
    """How the function that has this text may be named, the surest first; the last of these is its whole module."""
    source = (folder / path).read_text("utf-8")
    place, module = source.index(old), re.sub(r"/", "::", path.removeprefix("src/").removesuffix(".rt"))
    module = "" if module in ("lib", "main") else module.removesuffix("::mod")
    code = TOKEN.sub(lambda token: "_" * len(token[0]), source)
    functions = [found for found in FUNCTION.finditer(code) if found.start() <= place < (body_of(code, found) or (0, 0))[1]]
    if not functions:
        return [module] if module else []
    name = NAME.search(source, functions[-1].start())[1]
    owners = [found[1] for found in IMPL.finditer(source) if found.start() < place] if functions[-1][1] else []
    ways = [*([f"{owners[-1]}::{name}"] if owners else []), name]
    within = [f"{module}::{way}" for way in ways] if module else []
    return [*within, *ways, *([module] if module else [])]


def check_words(repository, crate):
    """The command by which `rt check` checks a crate of a repository, over the libraries that it keeps there."""
    kit = os.path.dirname(subprocess.run(["rt", "doc"], capture_output=True, text=True, check=True).stdout.strip())
    library = lambda name: f"{repository.root.absolute()}/crates/{name}/out/rlib"
    needs = repository.crates[crate].split(":")[1].split()
    built = lambda name: f"{library(name)}/{name}.rlib" if name in repository.crates else f"{kit}/rlibs/{name}.rlib"
    words = [f"{kit}/bin/rattle", "check", "--crate-name", crate, "src/lib.rt", "-L", f"dependency={kit}/rlibs"]
    words += [word for name in ["std", *needs] for word in ("--extern", f"{name}={built(name)}")]
    words += [word for name in sorted(repository.below(crate)) for word in ("-L", f"dependency={library(name)}")]
    words += ["--antt-project", f"{kit}/rattle/logic/antt-project.json", "--logic-built", f"{kit}/logic_built"]
    return [*words, "--jobs", "1", "--incremental", "out/incremental"]


class Trial:
    """A crate in a copy of the repository, over the libraries that stand there, and which of its functions are proved as they are: all of them where a
    library of exactly this crate is kept, which is so proved as a whole."""

    def __init__(self, room, crate, is_proved):
        self.folder = pathlib.Path(room, "crates", crate)
        # The checks are those of `rattle` itself: `rt` sums up all files below at each call, and builds libraries anew that `rt ci` made.
        os.makedirs(self.folder / "out", exist_ok=True)
        self.words = check_words(Repository(room), crate)
        self.edits = sorted(self.folder.glob("must-fail/*.edit"))
        self.changes = {edit: changed(edit.read_text("utf-8"), self.folder) for edit in self.edits}
        # How each place that is changed may be named still.
        self.names = {place: named(*place, self.folder) for found in self.changes.values() if found for place in found[1]}
        self.proved = None if is_proved else self.all_proved()

    def check(self, names):
        words = [*self.words, *(word for name in names for word in ("--only", name))]
        return subprocess.run(words, cwd=self.folder, stdout=subprocess.PIPE, stderr=subprocess.STDOUT, text=True, errors="replace", check=False)

    def first_names(self):
        return sorted({names[0] for names in self.names.values() if names})

    def all_proved(self):
        """The names of the functions that are changed, where they are proved as they are: first all at once, else one by one."""
        while names := self.first_names():
            ran = self.check(names)
            if not self.renamed(ran):
                return set(names) if not ran.returncode else {name for name in names if not self.check([name]).returncode}
        return set()

    def renamed(self, ran):
        """Whether a check took a name for none of a function, so that the places of this name go by the next one that they may have."""
        strange = STRANGE.search(ran.stdout) if ran.returncode == 2 else None
        places = [place for place, names in self.names.items() if strange and names[:1] == [strange[1] or strange[2]]]
        for place in places:
            self.names[place] = self.names[place][1:]
        return bool(places)

    def names_of(self, edit):
        """The functions that an edit changes, or none where it can't be tried by them."""
        _, places = self.changes[edit] or ({}, [])
        names = {name for place in places for name in self.names[place][:1]}
        return names if self.proved is None or names <= self.proved else set()

    def together(self):
        """The edits in lists, each of edits of different functions, which one check tries. A module isn't a function, so that its edits are tried alone."""
        lists = []
        for edit in filter(self.names_of, self.edits):
            names = self.names_of(edit)
            is_alone = any(len(self.names[place]) < 2 for place in self.changes[edit][1])
            free = next((found for found in lists if not is_alone and not found[1] and names.isdisjoint(found[2])), None)
            if free:
                free[0].append(edit)
                free[2].update(names)
            else:
                lists.append(([edit], is_alone, names))
        return [edits for edits, _, _ in lists]

    def checked(self, edits):
        """What a check of the functions says that these edits change, once they are made; None where they can't all be made."""
        was = {}
        try:
            for edit in edits:
                found = changed(edit.read_text("utf-8"), self.folder)
                if not found:
                    return None
                for path, text in found[0].items():
                    was.setdefault(path, (self.folder / path).read_text("utf-8"))
                    (self.folder / path).write_text(text, "utf-8")
            while names := set().union(*map(self.names_of, edits)):
                ran = self.check(sorted(names))
                if not self.renamed(ran):
                    return ran
            return None
        finally:
            for path, text in was.items():
                (self.folder / path).write_text(text, "utf-8")

    def verdicts(self):
        """What the prover says of edits, as `rt must-fail` prints it: of those of different functions at once, and of what that leaves one by one."""
        for edits in self.together():
            ran = self.checked(edits) if len(edits) > 1 else None
            said = {edit: ran and self.refusal_among(ran, edit) for edit in edits}
            for edit in edits:
                yield edit, said[edit] or self.verdict(edit)

    def verdict(self, edit):
        """What the prover says of one edit, or None where this says nothing."""
        ran = self.checked([edit])
        return ran and self.refusal(ran)

    def refusal_among(self, ran, edit):
        """Why the prover refused a function that an edit changes, if it did, where other functions were changed too."""
        names = self.names_of(edit)
        failed = filter(None, map(FAILED.match, ran.stdout.splitlines())) if self.refusal(ran) else []
        said = next((found[0] for found in failed if any(f"::{found[1]}".endswith(f"::{name}") for name in names)), None)
        return f"{REFUSED}: {said[:160]}" if said else None

    @staticmethod
    def refusal(ran):
        """Why the prover refused a function, if it did, and for no other reason than a statement that doesn't hold."""
        lines = ran.stdout.splitlines()
        end = next((END.match(line) for line in reversed(lines) if END.match(line)), None)
        if ran.returncode != 1 or not end or end[1] == end[2]:
            return None
        noted = [found for found in map(NOTED.match, lines) if found and (found[0].startswith("note") or "error" in found[2])]
        if any(UNREAD.search(found[2]) for found in noted if not found[1].startswith("proofs/")):
            return None
        said = [found[0] for found in noted if not (found[1].startswith("proofs/") and UNREAD.search(found[2]))]
        return f"{REFUSED}: {said[0][:160]}" if said else None


def tried(room, crate, is_proved):
    """The verdicts of a crate's edits, by their names, as far as their functions decide."""
    trial = Trial(room, crate, is_proved)
    verdicts = {}
    for edit, said in trial.verdicts():
        if said:
            verdicts[edit.name] = said
            print(f"rt: must-fail {crate}/{edit.name}: {said}", flush=True)
    return verdicts
