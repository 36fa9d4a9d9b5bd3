"""What the measures share: a plain Rust program that does the same job, its inputs, and a run of a program.

The peer stands in ../shared/peer. It is copied to a folder under the system's temporary one, built there, and makes its
inputs there (about 600 MB, once).
"""
import json, math, os, shutil, subprocess, sys, tempfile
from collections import namedtuple

ROOT = os.path.dirname(os.path.dirname(os.path.abspath(__file__)))
SHARED = os.path.join(ROOT, "..", "shared", "peer")
WORK = os.path.join(tempfile.gettempdir(), "xcr-bench")
PEER = os.path.join(WORK, "target", "release", "xcr")
INPUTS = os.path.join(WORK, "bench", "inputs")
# for the growth: a kind of the peer's generator, and a size whose double is also made
GROWTH = [
    ("wide", 256),
    ("versions", 500000),
    ("waiting-big", 16000),
    ("waiting-small", 250000),
    ("splits", 250000),
    ("safes", 500000),
    ("keys", 30000),
]


def options(words, usage):
    """The number of runs, the names of the inputs that are asked for (None: all) and the program."""
    runs, only = 3, None
    while words[:1] and words[0].startswith("--"):
        if words[0] == "--runs":
            runs = int(words[1])
        elif words[0] == "--inputs":
            only = words[1].split(",")
        else:
            sys.exit(usage)
        words = words[2:]
    return runs, only, os.path.abspath(words[0] if words else os.path.join(ROOT, "crates", "xcr", "out", "xcr"))


def prepare():
    """Builds the peer and makes its inputs, where they aren't there yet."""
    if not os.path.isdir(SHARED):
        sys.exit("the peer isn't there: " + SHARED)
    if not os.path.exists(PEER):
        shutil.copytree(SHARED, WORK, dirs_exist_ok=True)
        subprocess.run(["chmod", "-R", "u+w", WORK], check=True)
        subprocess.run(["cargo", "build", "--release", "--offline", "--quiet"], cwd=WORK, check=True)
    if not os.path.exists(os.path.join(INPUTS, "wide.seg")):
        subprocess.run([os.path.join(WORK, "bench", "make_inputs.sh")], check=True)
    for kind, size in GROWTH:
        for part in (size, 2 * size):
            path = os.path.join(INPUTS, f"{kind}-{part}.growth")
            if not os.path.exists(path):
                with open(path, "wb") as log:
                    subprocess.run([PEER, "geninput", kind, str(part)], stdout=log, check=True)


# the wall time and the processor's time in seconds, the peak memory in MiB, the status and the output, and what was
# told beside them
Run = namedtuple("Run", "wall processor memory answer errors")


# A process of little memory that starts the program: what a process had before it became the program counts as its own.
START = """
import json, os, sys, time
began = time.perf_counter()
_, status, usage = os.wait4(os.posix_spawn(sys.argv[2], sys.argv[2:], os.environ), 0)
wall = time.perf_counter() - began
told = [wall, usage.ru_utime + usage.ru_stime, usage.ru_maxrss / 1024, os.waitstatus_to_exitcode(status)]
os.write(int(sys.argv[1]), json.dumps(told).encode())
"""


def run(program, words):
    """One run of a program over the inputs."""
    with tempfile.TemporaryFile() as output, tempfile.TemporaryFile() as errors, tempfile.TemporaryFile() as told:
        env = {**os.environ, "XCR_TIMES": "1"}
        start = [sys.executable, "-S", "-c", START, str(told.fileno()), program] + words
        subprocess.run(start, cwd=INPUTS, stdout=output, stderr=errors, env=env, pass_fds=[told.fileno()], check=True)
        for file in (output, errors, told):
            file.seek(0)
        wall, processor, memory, code = json.load(told)
        return Run(wall, processor, memory, (code, output.read()), errors.read().decode())


def logs(only):
    """The names of the peer's logs, of those that are asked for."""
    names = sorted(name for name in os.listdir(INPUTS) if name.endswith(".log"))
    return [name for name in names if not only or name[:-4] in only]


def compare(names, peer_run, this_run):
    """Prints a line for each name: the best time and the memory of both programs, and the ratios."""
    print(f"{'input':34} {'peer s':>8} {'this s':>8} {'ratio':>6} {'peer MiB':>9} {'this MiB':>9} {'ratio':>6}")
    ratios = []
    for name in names:
        (peer, peer_memory), (this, this_memory) = peer_run(name), this_run(name)
        ratios.append(this / peer)
        times = f"{peer:8.3f} {this:8.3f} {this / peer:6.2f}"
        memory = f"{peer_memory:9.0f} {this_memory:9.0f} {this_memory / peer_memory:6.2f}"
        print(f"{name:34} {times} {memory}")
    if ratios:
        mean = math.exp(sum(math.log(ratio) for ratio in ratios) / len(ratios))
        print(f"time: geometric mean {mean:.2f}, worst {max(ratios):.2f}")


def growth(this_run):
    """Prints how time and memory grow where an input doubles: 2.0 is in proportion."""
    print(f"\n{'kind':16} {'size':>9} {'doubled':>9} {'growth of time':>15} {'of memory':>10}")
    for kind, size in GROWTH:
        small, small_memory = this_run(f"{kind}-{size}.growth")
        large, large_memory = this_run(f"{kind}-{2 * size}.growth")
        print(f"{kind:16} {size:9} {2 * size:9} {large / small:15.2f} {large_memory / small_memory:10.2f}")
