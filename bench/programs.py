# SPDX-License-Identifier: Apache-2.0
"""The built program `scalar_cases` and that of bench/plain/values, which answer the same lines: how they are built and run, where
their answers differ, and what a call takes in each.
"""
import os, re, subprocess, sys, tempfile

TOP = os.path.dirname(os.path.dirname(os.path.abspath(__file__)))
CASES = f"{TOP}/crates/scalar_cases/stdin"


def stop(why):
    sys.exit(f"{os.path.relpath(os.path.abspath(sys.argv[0]), TOP)}: {why}")


def run(words, text, **settings):
    """Runs a program on a text, and returns what it wrote, on standard output and on standard error."""
    with tempfile.TemporaryFile() as file:
        file.write(text.encode())
        file.seek(0)
        ran = subprocess.run(words, stdin=file, capture_output=True, text=True, env={**os.environ, **settings})
    if ran.returncode not in (0, 1):
        stop(f"{words[-1]} ended with {ran.returncode} on {text[:100]}: {ran.stderr[-300:]}")
    return ran.stdout, ran.stderr


def build(folder):
    """Returns our program and the plain one."""
    ours = os.environ.get("PROGRAM")
    if not ours:
        ours = f"{TOP}/crates/scalar_cases/out/scalar_cases"
        subprocess.run([f"{TOP}/scalar_cases", "--build"], stdin=subprocess.DEVNULL, check=True)
    plain = f"{folder}/plain"
    subprocess.run(["rustc", "-O", "--edition", "2024", "-o", plain, f"{TOP}/bench/plain/values/main.rs"], check=True)
    return os.path.abspath(ours), plain


def differing(ours, plain, lines):
    """Returns the answered lines that differ, ours and the plain program's."""
    text = "".join(f"{line}\n" for line in lines)
    first, second = (run([program], text)[0].splitlines() for program in (ours, plain))
    if len(first) != len(lines) or len(second) != len(lines):
        stop(f"of {len(lines)} lines {len(first)} and {len(second)} were answered")
    return [(a, b) for a, b in zip(first, second) if a != b or a.startswith("line ")]


def stored_lines(calls):
    """Returns the stored cases of these calls, without their answers; none of which the text has an arrow too."""
    cases = [line.split(" => ") for line in open(CASES, encoding="utf-8").read().splitlines()]
    return [case[0] for case in cases if len(case) == 2 and case[0].split(" ")[0] in calls]


def check(ours, plain, lines):
    """Tells the lines with other answers, and how many; returns the status."""
    found = differing(ours, plain, lines)
    for first, second in found:
        print(f"ours:  {first}\nplain: {second}")
    print(f"{len(lines) - len(found)} passed, {len(found)} failed")
    return 1 if found or not lines else 0


def build_marks(folder):
    """Builds the library that marks the begin and the end of calls."""
    subprocess.run(["cc", "-shared", "-fPIC", "-O1", "-o", f"{folder}/marks.so", f"{TOP}/bench/marks.c"], check=True)


class Counter:
    """Counts what calls take in a program."""

    def __init__(self, folder, program):
        self.folder, self.program, self.known = folder, program, {}

    def instructions(self, line):
        """Returns how many instructions the call takes."""
        if line not in self.known:
            words = ["valgrind", "--tool=callgrind", "--instr-atstart=no", f"--callgrind-out-file={self.folder}/callgrind"]
            said = run([*words, self.program, "--memory"], line + "\n", LD_PRELOAD=f"{self.folder}/marks.so")[1]
            counted = re.search(r"Collected : ([1-9]\d*)", said)
            if not counted:
                stop(f"nothing counted between the marks of {self.program}: {said[-300:]}")
            self.known[line] = int(counted[1])
        return self.known[line]

    def seconds(self, line, runs):
        """Returns how long the call takes in each of so many runs in one process."""
        said = run([self.program, "--memory"], f"{line}\n" * runs, LD_PRELOAD=f"{self.folder}/marks.so", TIMED="1")[1]
        return [int(took) / 1e9 for took in re.findall(r"took (\d+)", said)]


def timed(counters, line, turns, runs):
    """Returns how long the call takes in each program: in each turn one process of each, which makes so many runs of the call."""
    taken = [[] for _ in counters]
    for _ in range(turns):
        for times, counter in zip(taken, counters):
            times += counter.seconds(line, runs)
    return taken


def shown(ours, plain):
    return f"{ours:.1f} / {plain:.1f} = {ours / plain:.2f}"
