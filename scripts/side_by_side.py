"""The programs of both builds, the same work in C, and tables of them side by side: what scripts/bench, scripts/time_open and
scripts/time_get have in common, and scripts/load in part.

One build is for the kit's default processor, the other for x86-64-v3 (AVX2), if this machine has it. A folder of programs has
a folder for each build: `default/pir_server`, `default/pir_client`, `default/kernel_bench`, and the same three in `x86-64-v3`.
What is measured stands in lists by round: `found[COLUMN][WORK]`, where the columns are "C" and the builds' names."""

import collections
import contextlib
import os
import shutil
import statistics
import subprocess
import sys
import tempfile

ROOT = os.path.dirname(os.path.dirname(os.path.abspath(__file__)))
BASELINE = os.path.join(ROOT, "benches", "baseline.c")
DEFAULT, AVX2 = "default", "x86-64-v3"
SERVER, CLIENT, KERNELS = "pir_server", "pir_client", "kernel_bench"
ALL = (SERVER, CLIENT, KERNELS)

# A build's name, and where each of its programs is, by the program's name.
Build = collections.namedtuple("Build", "name programs")
# One line of a program: milliseconds, what it read and multiplied in a second, and the sum of the
# words that it made.
Figure = collections.namedtuple("Figure", "millis speed rate check")


def stop(message):
    sys.exit(f"{os.path.basename(sys.argv[0])}: {message}")


def in_out(name):
    return os.path.join(ROOT, "crates", name, "out", name)


def has_avx2():
    try:
        with open("/proc/cpuinfo", encoding="utf-8") as info:
            return " avx2" in info.read()
    except OSError:
        return False


def add_options(parser):
    """The options that say where the programs come from. Without one of them they are built, and dropped at the end."""
    one = parser.add_mutually_exclusive_group()
    one.add_argument("--keep", metavar="FOLDER", help="builds the programs, and leaves those of both builds in this folder")
    one.add_argument("--programs", metavar="FOLDER", help="takes the programs of both builds from a folder that --keep left")
    one.add_argument("--built", action="store_true", help="takes the programs that were built last, those in out/, as one build")


def make(cpu, names=ALL):
    """Proves and builds programs for a processor, and leaves them in out/."""
    print(f"building {', '.join(names)} for {cpu}", flush=True)
    if SERVER in names or CLIENT in names:
        words = ["--default"] if cpu == DEFAULT else []
        if subprocess.run([os.path.join(ROOT, "scripts", "build"), *words]).returncode != 0:
            stop("scripts/build failed")
    if KERNELS in names:
        words = [] if cpu == DEFAULT else [f"--cpu={cpu}"]
        crate = os.path.join(ROOT, "crates", KERNELS)
        done = subprocess.run(["rt", "run", *words], cwd=crate, capture_output=True, text=True)
        if done.returncode != 0 or not done.stdout.endswith("kernels timed\n"):
            stop(f"rt run {' '.join(words)} in {crate} failed:\n{done.stdout}{done.stderr}")


def made(folder, names):
    """Both builds, in a folder."""
    # The default build comes last, so that it is the one left in out/.
    for cpu in ([AVX2] if has_avx2() else []) + [DEFAULT]:
        make(cpu, names)
        os.makedirs(os.path.join(folder, cpu), exist_ok=True)
        for name in names:
            shutil.copy(in_out(name), os.path.join(folder, cpu))
    with open(os.path.join(folder, "commit"), "w", encoding="utf-8") as file:
        file.write(commit() + "\n")
    return found_in(folder, names)


def found_in(folder, names):
    """The builds in a folder that this machine can run, each with all of these programs."""
    cpus = [cpu for cpu in [DEFAULT] + ([AVX2] if has_avx2() else []) if os.path.isdir(os.path.join(folder, cpu))]
    if not cpus:
        stop(f"{folder} has no programs that this machine can run")
    return [Build(cpu, {name: os.path.abspath(os.path.join(folder, cpu, name)) for name in names}) for cpu in cpus]


def baseline(folder):
    """The same work in C."""
    program = os.path.join(folder, "c")
    if subprocess.run(["gcc", "-O3", "-march=native", "-o", program, BASELINE]).returncode != 0:
        stop("gcc failed")
    return program


@contextlib.contextmanager
def chosen(given, names=ALL):
    """The builds that the options ask for, and the program in C; it first prints what is run, where and of which commit."""
    with tempfile.TemporaryDirectory() as room:
        c = baseline(room)
        if given.built:
            builds, of = [Build("built", {name: in_out(name) for name in names})], commit()
        elif given.programs:
            builds, of = found_in(given.programs, names), kept_commit(given.programs)
        else:
            builds, of = made(given.keep or room, names), commit()
        for path in (path for build in builds for path in build.programs.values()):
            if not os.access(path, os.X_OK):
                stop(f"there is no program {path}")
        words = " ".join([os.path.basename(sys.argv[0]), *sys.argv[1:]])
        print(f"scripts/{words}, commit {of}, {machine()}, load {os.getloadavg()[0]:.1f}", flush=True)
        yield builds, c


def commit():
    done = subprocess.run(["git", "rev-parse", "--short", "HEAD"], cwd=ROOT, capture_output=True, text=True)
    return done.stdout.strip() or "unknown"


def kept_commit(folder):
    """The commit of which a folder's programs were built, as --keep wrote it."""
    try:
        with open(os.path.join(folder, "commit"), encoding="utf-8") as file:
            return file.read().strip() or "unknown"
    except OSError:
        return "unknown"


def machine():
    try:
        with open("/proc/cpuinfo", encoding="utf-8") as lines:
            names = [line.split(":", 1)[1].strip() for line in lines if line.startswith("model name")]
    except OSError:
        names = []
    return f"{names[0] if names else 'an unknown processor'}, {os.cpu_count()} cores"


def figures(program, *words):
    """The lines that one run of kernel_bench or of the program in C prints, by the name of the work."""
    done = subprocess.run([program, *words], capture_output=True, text=True)
    if done.returncode != 0:
        stop(f"{program} {' '.join(words)} failed:\n{done.stderr}")
    lines = (line.split("\t") for line in done.stdout.splitlines())
    return {name: Figure(float(millis.split()[0]), speed, rate, check) for name, millis, speed, rate, check in lines}


def noted(found, figures_by_column, names):
    """Adds to each column the milliseconds of such of these pieces of work as it has, and stops where two columns made other words."""
    for name in names:
        have = {column: made[name] for column, made in figures_by_column.items() if name in made}
        if not have:
            stop(f"no program gives a time of {name}")
        if len({figure.check for figure in have.values()}) > 1:
            stop(f"the programs differ in the words of: {name}")
        for column, figure in have.items():
            found[column][name].append(figure.millis)


def columns(builds):
    """A list for each piece of work, by column."""
    return {column: collections.defaultdict(list) for column in ["C", *(build.name for build in builds)]}


def divided(dividends, *divisors):
    """Each round's ratio to a sum of times."""
    return [top / sum(parts) for top, *parts in zip(dividends, *divisors)]


def as_number(ratio):
    return f"{ratio:.2f}"


def as_part(ratio):
    return f"1/{1 / ratio:.1f}" if ratio > 0.02 else f"1/{1 / ratio:.0f}"


def row(name, cells):
    print(f"| {name} | {' | '.join(cells)} |")


def print_times(found, names):
    """The median of each time over the rounds."""
    print("\n| Work, median milliseconds | " + " | ".join(found) + " |\n|---" + "|---" * len(found) + "|")
    for name in names:
        row(name, [f"{statistics.median(times[name]):.2f}" if times.get(name) else "" for times in found.values()])


def print_ratios(builds, ratios):
    """The median of each round's ratio: `ratios` has a name, what is wanted on x86-64-v3, how to print it, and each round's ratio by build."""
    names = [build.name for build in builds]
    print("\n| Median of each round's ratio | " + " | ".join(names) + f" | wanted on {AVX2} |\n|---" + "|---" * (len(names) + 1) + "|")
    for name, wanted, printed, of in ratios:
        row(name, [printed(statistics.median(of(build))) for build in names] + [wanted])
