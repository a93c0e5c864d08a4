"""The prover over scratch copies of crates: what tests/refusals and tests/mutants share.

A check from nothing proves a whole crate again. Here each crate has an incremental folder of its proved modules, made once in a
run, and a change is checked over a copy of it, so it costs the modules that it touches. The checkout's crates are read and never
written, and what a check of a change leaves behind is not used by the next one.
"""

import os
import queue
import re
import shutil
import signal
import subprocess
import sys
import tempfile
import threading
import time
from concurrent.futures import ThreadPoolExecutor

ROOT = os.path.dirname(os.path.dirname(os.path.abspath(__file__)))
PARTS = ("src", "specs", "proofs")
LIMIT = 600  # seconds after which a check is given up


class Stop(Exception):
    """What keeps the whole run from going on; its text is for the user."""


def read(path):
    with open(path, encoding="utf-8") as file:
        return file.read()


def write(path, text):
    os.makedirs(os.path.dirname(path), exist_ok=True)
    with open(path, "w", encoding="utf-8") as file:
        file.write(text)


def temporary():
    """A folder of this run's own. A check makes hundreds of small files, so it lies in memory where there is room."""
    memory = "/dev/shm"
    roomy = os.path.isdir(memory) and os.access(memory, os.W_OK) and shutil.disk_usage(memory).free > 4 << 30
    return tempfile.TemporaryDirectory(dir=memory if roomy else None, ignore_cleanup_errors=True)


def read_crates():
    """crates.txt: each crate with what it uses, in the file's order, and those that are static libraries."""
    uses, static = {}, set()
    for line in read(os.path.join(ROOT, "crates.txt")).splitlines():
        head, colon, rest = line.partition("#")[0].partition(":")
        if colon:
            name, *words = head.split()
            uses[name] = rest.split()
            static.update([name] * ("staticlib" in words))
    return uses, static


USES, STATIC = read_crates()
LIBRARIES = [crate for crate in USES if os.path.isfile(os.path.join(ROOT, "crates", crate, "src/lib.rt"))]


def below(crate):
    """The crates of the repository that a crate reaches, in the order of crates.txt."""
    reached, todo = set(), [crate]
    while todo:
        used = [name for name in USES[todo.pop()] if name in USES and name not in reached]
        reached.update(used)
        todo += used
    return [name for name in USES if name in reached]


# ---- what a check says

# An error that says no more than that declarations rest on one which was refused: which that is, and some of them.
RESTS = re.compile(r"depends? on `([^`]+)`, which was (?:rejected|not admitted), (?:was|were) not checked: (.*)")
ADMITTED = re.compile(r"(?:was|is) not admitted")
# A proof that cites what is not there any more: it shows nothing about the contract.
UNNAMED = re.compile(r"has no field `|can be named from here|has no `|not in scope|is no name|missing field\(s\) of")
# A limit of the prover's own, at which it stops and can tell nothing; a tactic that gives up leaves a goal open instead.
LIMITS = re.compile(r"the step limit|the memory limit|a resource limit|(?:antt|kernel|elaboration) ran out of|ran out of (?:the )?(?:steps|memory|stack)|term arena is full")
# A text that cannot be read as the proof language.
UNREAD = re.compile(r"is not in scope|has no field|is no name|operand is missing|expected the end|cannot continue")
# The front end's errors have a code, as error[unknown-name]; antt's have none.
ERROR = re.compile(r"(?P<crate>\w+)/(?P<file>\S+?):(?P<line>\d+):(?P<column>\d+): error(?P<code>\[\S+\])?: (?P<text>.*)")
# The files of a function's proof.
PROOF_FILES = ("Answers.antt", "Invariants.antt", "Proof.antt")


def is_of(name, function):
    """Whether what a report names is a function, the measure by which it calls itself, or a closure in it: `ain::fn::Table::sum::map`
    is the one that `ain::Table::sum` gives to `map`."""
    if name is None:
        return False
    named = re.sub(r"(?<=::)\+(?=\w+$)", "", name)
    plain = named.replace("::fn::", "::", 1)
    return named == function or plain != named and plain.startswith(function + "::")


class Error:
    """One error: where it is, the declaration that it names, and its ground: code, limit, unread, rests, unnamed or fact."""

    def __init__(self, match, more):
        self.crate, self.file, self.line, self.column = match["crate"], match["file"], int(match["line"]), int(match["column"])
        text = match["text"] + more
        name = re.match(r"`([^`]*)`: ", text)
        self.declaration = name[1] if name else "?"
        parts = self.file.split("/")
        # what antt cannot read of a contract or a definition, and a fact of these that it refuses
        stated, said = parts[0] in ("src", "specs"), re.sub(r"`[^`]*`", "", text)
        rests = RESTS.search(text)
        # the declaration on which others rest
        self.on = rests[1] if rests else None
        # what is refused by this error, and all that is refused or not checked as far as it says
        self.refused = {name[1]} if name else {rests[1], *re.findall(r"(?:^|[,)] |and )([^\s,]+)(?= \(via|,|$| and)", rests[2])} if rests else set()
        if match["code"]:
            self.ground = "code"
        elif rests:
            self.ground = "rests"
        elif LIMITS.search(re.sub(r"`[^`]*`", "", match["text"])):
            self.ground = "limit"
        elif stated and (not name or UNREAD.search(said)):
            self.ground = "unread"
        else:
            self.ground = "rests" if ADMITTED.search(text) else "unnamed" if UNNAMED.search(text) else "fact"
        self.text = text
        # the function whose proof it stands in, as the report names functions
        self.function = "::".join([self.crate] + parts[1:-1]) if parts[0] == "proofs" and parts[-1] in PROOF_FILES else None

    def place(self):
        return "crates/%s/%s:%d %s" % (self.crate, self.file, self.line, self.declaration)


# A goal that the proof which rattle makes itself does not close.
OPEN = re.compile(r"did not prove (`.*)")


class Report:
    """A check's log, read: the verdict, that of each function, and the errors."""

    def __init__(self, status, log, folder):
        self.log = log.replace(folder + "/", "")
        lines = self.log.splitlines() or ["nothing was said"]
        self.proved = status == 0 and lines[-1].startswith("logic=proved")
        self.undecided = lines[-1].startswith("rattle: no verdict")
        self.refused = status == 1 and lines[-1].startswith("logic=not-proved")
        self.functions = dict(re.findall(r"^fn (\S+): (.*)$", self.log, re.M))
        self.errors = []
        for at, line in enumerate(lines):
            match = ERROR.match(line)
            if match:
                end = at + 1
                while end < len(lines) and lines[end].startswith("  "):
                    end += 1
                self.errors.append(Error(match, "\n".join(lines[at + 1 : end])))

    def last(self):
        lines = self.log.splitlines() or ["nothing was said"]
        return next((line for line in lines if "error" in line), lines[-1])

    def facts(self, function=None):
        """Where a fact fails: an error of a proof, or a goal that the proof which rattle makes itself does not close. A check that
        comes to no verdict, as at a limit, refuses nothing."""
        if not self.refused:
            return []
        wanted = [error for error in self.errors if error.ground == "fact" and (function is None or is_of(error.function, function))]
        places = [error.place() for error in wanted]
        for name, verdict in self.functions.items():
            open_goals = OPEN.search(verdict)
            if open_goals and (function is None or is_of(name, function)):
                places.append("%s, goal %s" % (name, open_goals[1].partition(";")[0].replace("`", "")))
        return places

    def stray(self, changed):
        """Whether a fact fails beside the changed functions: then one change has told upon another's proof."""
        return len(self.facts()) > sum(len(self.facts(function)) for function in changed)

    def unnamed(self, function=None):
        """The errors of proofs that do not fit."""
        return [error for error in self.errors if error.ground == "unnamed" and (function is None or is_of(error.function, function))]

    def refused_names(self):
        """The declarations that are refused or rest on refused ones, as far as it says; not those that met a limit or rest on such."""
        limited, more = {error.declaration for error in self.errors if error.ground == "limit"}, True
        while more:
            more = {name for error in self.errors if error.on in limited for name in error.refused} - limited
            limited |= more
        return {name for error in self.errors if error.ground != "limit" and error.on not in limited for name in error.refused}

    def why_not(self, unnamed=None):
        """Why a log without a failing fact shows nothing."""
        if self.proved:
            return "NOT REFUSED: still proved"
        for error in self.errors:
            if error.ground == "unread":
                return "it cannot be read: " + error.place() + " " + error.text.partition("\n")[0]
        limit = next((", at " + error.place() for error in self.errors if error.ground == "limit"), "")
        if self.undecided:
            return "no verdict" + (": a limit" + limit if limit else ": " + self.last())
        if not self.refused:
            return "it does not reach the prover: " + self.last()
        for error in unnamed or self.unnamed():
            return "no fact fails: the proof does not fit, at " + error.place()
        if limit:
            return "no fact fails: a limit" + limit
        return "no fact fails: only callers are refused"


# ---- the kit, and copies to check


class Kit:
    """Where `rt` has the prover and what it reads: `rt doc` names a file in the kit's folder."""

    def __init__(self):
        page = subprocess.run(["rt", "doc"], stdout=subprocess.PIPE, text=True, check=True).stdout.strip()
        self.home = os.path.dirname(os.path.realpath(page))
        self.rattle = os.path.join(self.home, "bin/rattle")

    def words(self, folder, top, sources, rlibs):
        """What names the crate `top` and what it uses, as rt does: the crates `sources` by their text, the others as built in `rlibs`."""
        words = ["--crate-name", top, os.path.join(folder, top, "src/lib.rt")]
        kept = {}  # what a crate names itself, without the crates that come as text
        for crate in sources:
            used = ["core", "std"] + USES.get(crate, [])
            kept[crate] = [name for name in used if name not in sources]
            if crate != top:
                words += ["--lib", "%s:%s=%s" % (crate, ",".join(used), os.path.join(folder, crate, "src/lib.rt"))]
        named = {"std"}.union(*kept.values()) - ({"core"} if len(sources) == 1 else set())
        for name in sorted(named):
            place = rlibs if name in USES else os.path.join(self.home, "rlibs")
            words += ["--extern", "%s=%s" % (name, os.path.join(place, name + ".rlib"))]
        for place in [rlibs, os.path.join(self.home, "rlibs")]:
            words += ["-L", "dependency=" + place]
        words += ["--antt-project", os.path.join(self.home, "rattle/logic/antt-project.json")]
        return words + ["--logic-built", os.path.join(self.home, "logic_built")] + ["--crate-type", "staticlib"] * (top in STATIC)


def linked(folder, to):
    """Copies proved modules by links, as far as they are files that a check replaces and never writes into."""

    def copy(one, other):
        if one.endswith(".oantt"):
            try:
                return os.link(one, other)
            except OSError:
                pass
        return shutil.copy2(one, other)

    shutil.copytree(folder, to, symlinks=True, copy_function=copy, dirs_exist_ok=True)


def lanes():
    """How many checks at a time: as many as RT_JOBS says, or one a processor, where each may take some 3 GB."""
    if os.environ.get("RT_JOBS", "").isdigit():
        return max(1, int(os.environ["RT_JOBS"]))
    free = re.search(r"^MemAvailable:\s+(\d+)", read("/proc/meminfo"), re.M)
    return max(1, min(len(os.sched_getaffinity(0)), int(free[1]) // 3_000_000 if free else 2))


class Bench:
    """A temporary folder with the crates as they are: of each that is to be checked, and of those below, the proved modules and
    the library that the crates above read. `anew`: without what `rt check` has kept in out/."""

    def __init__(self, crates, anew=False):
        self.kit = Kit()
        self.room = temporary()
        self.folder = self.room.name
        self.rlibs = os.path.join(self.folder, "rlibs")
        self.bases, self.locks, self.seconds = {}, {}, {}
        self.running, self.stopped = set(), False
        os.makedirs(self.rlibs)
        try:
            self.prove([name for name in USES if name in set(crates).union(*map(below, crates))], anew)
        except BaseException:
            self.room.cleanup()
            raise

    def __enter__(self):
        return self

    def __exit__(self, *_):
        self.room.cleanup()

    def prove(self, crates, anew):
        """Proves the crates as they stand, each after those that it uses."""
        begun = {}

        def one(crate):
            for lower in below(crate):
                begun[lower].result()
            folder = os.path.join(self.folder, "base")
            self.copy(folder, [crate])
            kept = os.path.join(ROOT, "crates", crate, "out/incremental")
            modules = self.modules(crate)
            if os.path.isdir(kept) and not anew:
                # (rt may write there meanwhile)
                try:
                    linked(kept, modules)
                except (OSError, shutil.Error):
                    shutil.rmtree(modules, ignore_errors=True)
            os.makedirs(modules, exist_ok=True)
            build = [] if crate in STATIC else ["-o", os.path.join(self.rlibs, crate + ".rlib")]
            report = self.run(folder, crate, [crate], modules, "build" if build else "check", ["--jobs", str(min(2, lanes())), *build])
            if not report.proved:
                sys.stdout.write(report.log)
                raise Stop("%s does not prove as it is, so a change shows nothing: %s" % (crate, report.last()))

        with ThreadPoolExecutor(lanes()) as pool:
            # a crate waits for those that were handed in before it alone
            for crate in crates:
                begun[crate] = pool.submit(one, crate)
        failed = [it.exception() for it in begun.values() if it.exception()]
        if failed:
            raise failed[0]

    def modules(self, crate):
        return os.path.join(self.folder, "modules", crate)

    def stop(self):
        """Ends what runs, and nothing is begun any more."""
        self.stopped = True
        for check in list(self.running):
            check.kill()

    def once(self, words, environment, folder):
        """What a check prints, and its exit status; 3, which is no verdict, where it takes too long."""
        check = subprocess.Popen(words, stdout=subprocess.PIPE, stderr=subprocess.STDOUT, stdin=subprocess.DEVNULL, env=environment, cwd=folder)
        self.running.add(check)
        try:
            return check.communicate(timeout=LIMIT)[0], check.returncode
        except subprocess.TimeoutExpired:
            check.kill()
            return check.communicate()[0] + b"\nno verdict after %d s\n" % LIMIT, 3
        finally:
            self.running.discard(check)

    def run(self, folder, top, sources, incremental, verb="check", more=("--jobs", "1")):
        words = [self.kit.rattle, verb, *self.kit.words(folder, top, sources, self.rlibs), "--incremental", incremental, *more]
        began = time.time()
        environment = dict(os.environ, TMPDIR=self.folder)
        log, status = self.once(words, environment, folder)
        # A check that a signal ended has said nothing: it is made once more.
        if status < 0 and not self.stopped:
            log, status = self.once(words, environment, folder)
        if self.stopped:
            raise Stop("stopped")
        what = "%s as it is" % top if verb == "build" else top if len(sources) == 1 else "%s with what it uses" % top
        self.seconds.setdefault(what, []).append(time.time() - began)
        return Report(status, log.decode("utf-8", "replace"), folder)

    def copy(self, folder, crates):
        for crate in crates:
            for part in PARTS:
                source = os.path.join(ROOT, "crates", crate, part)
                if os.path.isdir(source):
                    shutil.copytree(source, os.path.join(folder, crate, part))

    def base(self, top, sources):
        """The proved modules of the unchanged crates; a check over them, of several crates by their text, has to prove these."""
        if len(sources) == 1:
            return self.modules(top)
        key = (top, *sources)
        with self.locks.setdefault(key, threading.Lock()):
            if key not in self.bases:
                folder = os.path.join(self.folder, "base-%s-%d" % (top, len(sources)))
                self.copy(folder, sources)
                incremental = os.path.join(folder, ".incremental")
                for crate in sources:
                    linked(self.modules(crate), incremental)
                report = self.run(folder, top, sources, incremental, more=("--jobs", str(min(2, lanes()))))
                if not report.proved:
                    raise Stop("%s does not prove without a change: %s" % (top, report.last()))
                self.bases[key] = incremental
            return self.bases[key]


class Worker:
    """A scratch copy of the crates, in which changes are tried one after the other."""

    def __init__(self, bench, number):
        self.bench, self.folder = bench, os.path.join(bench.folder, "worker-%d" % number)

    def check(self, top, sources, texts):
        """The report with some files replaced: texts maps `crate/part/..` to a text, or to None for a file that is taken away."""
        base = self.bench.base(top, sources)
        self.bench.copy(self.folder, [crate for crate in sources if not os.path.isdir(os.path.join(self.folder, crate))])
        incremental = os.path.join(self.folder, ".incremental")
        shutil.rmtree(incremental, ignore_errors=True)
        linked(base, incremental)
        before = {}
        for path, text in texts.items():
            place = os.path.join(self.folder, path)
            before[place] = read(place)
            if text is None:
                os.remove(place)
            else:
                write(place, text)
        try:
            return self.bench.run(self.folder, top, sources, incremental)
        finally:
            for place, text in before.items():
                write(place, text)


def workers(bench, jobs, work):
    """Has each job done by a worker, as many as there is room for: work(worker, job) answers further jobs, or None."""
    waiting = queue.Queue()
    for job in jobs:
        waiting.put(job)
    failed = []

    def run(number):
        worker = Worker(bench, number)
        while not failed:
            try:
                job = waiting.get_nowait()
            except queue.Empty:
                return
            try:
                for more in work(worker, job) or []:
                    waiting.put(more)
            except BaseException as error:
                failed.append(error)

    threads = [threading.Thread(target=run, args=(number,), daemon=True) for number in range(lanes())]
    for thread in threads:
        thread.start()
    try:
        for thread in threads:
            thread.join()
    except BaseException as error:  # a signal: the copies are in use until the workers have ended
        failed.append(error)
        bench.stop()
        for thread in threads:
            thread.join()
    if failed:
        raise failed[0]


class Progress:
    """What was done, on standard error: a count, and an estimate of what is left."""

    def __init__(self, what, total, before=0):
        self.what, self.total, self.before, self.done, self.began, self.shown = what, total, before, before, time.time(), 0.0
        self.lock = threading.Lock()

    def step(self, count=1):
        with self.lock:
            self.done += count
            now = time.time()
            if now - self.shown < 10 and self.done < self.total:
                return
            self.shown = now
            left = (now - self.began) / (self.done - self.before) * (self.total - self.done)
            print("%s: %d of %d, some %d s left" % (self.what, self.done, self.total, left), file=sys.stderr, flush=True)


def run(name, main, options, text, needs=()):
    """Runs main(words, options given); what is temporary is removed when it is stopped, too. Besides rt it needs some programs,
    given in turns with what for."""
    signal.signal(signal.SIGTERM, lambda *_: sys.exit(143))
    words = sys.argv[1:]
    given = {word for word in words if word.startswith("-")}
    try:
        if given & {"-h", "--help"}:
            print(text.strip())
            sys.exit(0)
        if given - set(options):
            raise Stop("no option %s; --help tells what there is" % min(given - set(options)))
        missing = subprocess.run([os.path.join(ROOT, "tests/needs"), name, "rt", "its checks", *needs], stdout=subprocess.PIPE, text=True)
        if missing.returncode != 0:
            raise Stop("; ".join(missing.stdout.splitlines()) or "tests/needs does not run")
        sys.exit(main([word for word in words if word not in given], given))
    except Stop as stop:
        print("%s: %s" % (name, stop), file=sys.stderr)
        sys.exit(2)
    except KeyboardInterrupt:
        print("%s: stopped" % name, file=sys.stderr)
        sys.exit(130)
