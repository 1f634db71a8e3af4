"""What the measures share: the built program, plain Rust programs, and fresh processes that are timed."""
import os
import shutil
import subprocess
import sys

ROOT = os.path.dirname(os.path.dirname(os.path.dirname(os.path.abspath(__file__))))


def need(*tools):
    """Ends with a word where a tool is missing."""
    for tool in tools:
        if shutil.which(tool) is None:
            print(f"skipped: {tool} is not here")
            sys.exit()


def program():
    """The built program, which the launcher builds first where it has to."""
    launcher = os.path.join(ROOT, "bin", "flash_cli")
    sample = os.path.join(ROOT, "samples", "ota_1.bin")
    subprocess.run([launcher, "choose", sample], stdout=subprocess.DEVNULL, check=False)
    return os.path.join(ROOT, "crates", "flash_cli", "out", "flash_cli")


def built(folder, name):
    """The program of a Rust source of this folder, built into another one."""
    source = os.path.join(ROOT, "bench", "peers", name + ".rs")
    to = os.path.join(folder, name)
    subprocess.run(["rustc", "--edition", "2021", "-O", "-o", to, source], check=True)
    return to


def compare(folder, commands, passes):
    """Runs commands in turn, each in a fresh process, and prints of each the least seconds, how many times as long the
    first takes, and the peak memory. Returns the least seconds of each."""
    runner = built(folder, "runner")
    least = dict.fromkeys(commands, float("inf"))
    peak = dict.fromkeys(commands, 0)
    for _ in range(passes):
        for label, command in commands.items():
            taken, memory = subprocess.check_output([runner, *command], text=True).splitlines()[-1].split()
            least[label] = min(least[label], float(taken))
            peak[label] = max(peak[label], int(memory))
    first = next(iter(commands))
    for label, taken in least.items():
        ratio = least[first] / taken
        print(f"{label}: {1000 * taken:.1f} ms, {first} takes {ratio:.2f} of it; peak {peak[label] / 1024:.1f} MiB")
    return least
