"""Forms on trial: clones of lemmas in a crate of their own, which one check judges."""
import os
import re
import shutil
import subprocess
from dataclasses import dataclass

from forms import Spot, weight
from lemmas import Lemma

TRIALS, MOST_ROUNDS = "crates/trials", 12
ERROR = re.compile(r"^\.?/?proofs/(\w+)\.antt:(\d+):\d+: error: (.*)$", re.M)


@dataclass(frozen=True)
class Trial:
    file: str
    lemma: Lemma
    spot: Spot
    form: str

    def text(self):
        return self.spot.put(self.form)

    def clauses(self, lines):
        """The lemma's clauses with the form in its place."""
        if self.spot.index < 0:
            return self.text().split("\n")
        found = []
        for index, (start, end) in enumerate(self.lemma.clauses):
            found += self.text().split("\n") if index == self.spot.index else lines[start:end]
        return found

    def clone(self, lines, name):
        """The lemma with the form in its place, under another name."""
        text = "\n".join(lines[self.lemma.start : self.lemma.first] + self.clauses(lines))
        text = re.sub(rf"(?<![^\s(\[{{]){re.escape(self.lemma.name)}(?=[\s).,\]}}]|$)", name, text)
        return ["", *re.sub(r"^( *)pub ", r"\1", text, count=1).split("\n")]


class Judge:
    """Checks texts of a crate's proof files beside clones of their lemmas."""

    def __init__(self, crate, below, texts, lemmas, jobs):
        self.crate, self.below, self.texts, self.lemmas, self.jobs = crate, below, texts, lemmas, jobs
        # Files that name what the crate keeps to itself stay where they are, and aren't tried.
        self.kept = set()

    def passing(self, trials):
        """Those that the prover takes. A file that can't be read for one clone is read again without it."""
        failed, judged = set(), set()
        for _ in range(MOST_ROUNDS):
            now = [it for it in trials if it.file not in judged | self.kept and it not in failed]
            places, errors = self.check(self.texts, now)
            unread = set()
            for file, line, why in errors:
                trial, name = next(((it, name) for it, name, begin, end in places if it.file == file and begin < line <= end), (None, ""))
                failed.add(trial)
                if "that can be named from here" in why:
                    self.kept.add(file)
                if trial is None or f"`{name}`" not in why:
                    unread.add(file)
            judged |= set(self.texts) - self.above(unread)
            if not unread:
                return [it for it in trials if it not in failed and it.file not in self.kept]
        raise SystemExit(f"{self.crate}: couldn't be judged: {errors[:3]}")

    def refused(self, texts):
        """What is wrong with the texts as they are: triples of a file, a line and a reason."""
        return self.check(texts, [])[1]

    def above(self, files):
        """These files and all that cite them."""
        while True:
            more = {file for file, text in self.texts.items() if any(f"Rattle.{self.crate}.proofs.{it}." in text for it in files)}
            if more <= files:
                return files
            files = files | more

    def check(self, texts, trials):
        """Checks the texts with the clones, each behind its lemma: the clones' names and lines, and the errors."""
        places, crates = [], open("crates.txt").read()
        shutil.rmtree(TRIALS, ignore_errors=True)
        os.makedirs(f"{TRIALS}/src")
        os.makedirs(f"{TRIALS}/proofs")
        here = {file: text for file, text in texts.items() if file not in self.kept}
        try:
            write("crates.txt", f"{crates.rstrip()}\ntrials: {self.crate} {' '.join(self.below)}\n")
            write(f"{TRIALS}/src/lib.rt", "//! Proofs on trial.\n#![tactic(auto)]\n")
            write(f"{TRIALS}/proofs/Lib.antt", "".join(f"pub mod {file}\n" for file in here))
            for file, text in here.items():
                write(f"{TRIALS}/proofs/{file}.antt", self.with_clones(file, text, [it for it in trials if it.file == file], places, here))
            said = subprocess.run(["rt", "check", "--jobs", self.jobs], cwd=TRIALS, capture_output=True, text=True)
            said = said.stdout + said.stderr
        finally:
            write("crates.txt", crates)
            shutil.rmtree(TRIALS, ignore_errors=True)
        errors = [(file, int(line), why) for file, line, why in ERROR.findall(said)]
        if not errors and "logic=proved" not in said:
            raise SystemExit(f"{self.crate}: couldn't be judged: {said[-600:]}")
        return places, errors

    def with_clones(self, file, text, trials, places, here):
        lines, out, at = text.split("\n"), [], 0
        by_lemma = {}
        for number, trial in enumerate(trials):
            by_lemma.setdefault(trial.lemma.start, []).append((f"{trial.lemma.name}-try{number}", trial))
        for lemma in self.lemmas[file] if trials else ():
            out += lines[at : lemma.end]
            at = lemma.end
            for name, trial in by_lemma.get(lemma.start, ()):
                begin = len(out)
                out += trial.clone(lines, name)
                places.append((trial, name, begin, len(out)))
        moved = lambda it: f"Rattle.trials.proofs.{it[1]}" if it[1] in here else it[0]
        return re.sub(rf"Rattle\.{self.crate}\.proofs\.(\w+)", moved, with_arith("\n".join(out + lines[at:])))


def write(path, text):
    with open(path, "w") as file:
        file.write(text)


def with_arith(text):
    """A file that names `arith` with its import."""
    line = re.search(r"^use Rattle\.std\.proofs\.Common\.\{([^}]*)\}", text, re.M)
    if line and "arith" in text and not re.search(r"\barith\b", line[1]):
        return text.replace(line[0], line[0][:-1] + ", arith}", 1)
    return text


def without_unused(text):
    """A file without the names of its imports that it doesn't use."""
    rest = re.sub(r"^use .*$", "", text, flags=re.M)

    def is_used(name):
        name = name.split(" as ")[-1].strip()
        if "◌" in name:
            return all(part in rest for part in name.split("◌") if part)
        return re.search(rf"(?<![^\s(){{}}\[\],;.λ]){re.escape(name)}(?=[\s(){{}}\[\],;.]|$)", rest)

    def kept(line):
        names = [it for it in line[2].split(",") if is_used(it)]
        return f"{line[1]}{{{','.join(names).strip()}}}\n" if names else ""

    return re.sub(r"^(use [^{\n]*)\{([^}\n]*)\}\n", kept, text, flags=re.M)


def joined(lemma, lines, trials):
    """A lemma's clauses with the shortest of the forms that passed at each place, where places don't overlap."""
    texts = []
    for index, (start, end) in enumerate(lemma.clauses):
        old = "\n".join(lines[start:end])
        chosen = []
        for it in sorted((it for it in trials if it.spot.index == index), key=lambda it: weight(it.text())):
            is_free = all(it.spot.end <= other.spot.at or it.spot.at >= other.spot.end for other in chosen)
            if is_free and weight(it.text())[0] < weight(old)[0]:
                chosen.append(it)
        text = old
        for it in sorted(chosen, key=lambda it: -it.spot.at):
            new = it.text()
            text = new if it.spot.head else new[: len(new) - (len(old) - it.spot.end)] + text[it.spot.end :]
        texts.append(text)
    whole = [it.text() for it in trials if it.spot.index < 0]
    return min(["\n".join(texts), *whole], key=weight)
