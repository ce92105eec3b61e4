"""The deepest inputs, and how they end at so much stack."""
import resource
import subprocess

from command import PROGRAM


def deep_names(before, behind):
    """A session of 64 questions whose expression has 1,024 levels: each of sixteen definitions adds 64 to those of 1/2, and the
    last adds 63."""
    lines = [f"g := {before * times}g{behind * times}" for times in [64] * 15 + [63]]
    return ["cg 2", "g := 1/2"] + lines + ["value g"] * 64


def deepest_line():
    """The value with most levels that is read without a name: 64 braces, twelve levels each."""
    text = "0"
    for _ in range(64):
        text = "0- - 1.{" + text + "".join(f"{'|' * bars}1000" for bars in range(1, 9)) + "}^"
    return "value " + text


def inputs():
    """The deepest inputs, by what is deep in them, each with the cells that it is given."""
    forms = ["value ^511", "value v300 + *", "value 1.^400", "compare ^500 ; ^499*", "stops ^511", "check ^40 ; 0 ; \"(g0.)\"",
             "outcome ^511", "proof *7 ; *7", "temp {400|^300}"]
    return {
        "sums by names": (deep_names("(0+", ")"), 400_000),
        "braces by names": (deep_names("{", "|2000}"), 400_000),
        "one line": ([deepest_line()] * 64, 4_000_000),
        "ups": (forms * 7, 1_000_000),
        "a nimber": (["value *512"], 300_000),
    }


def answered(session, cells, workers, kilobytes):
    """How the session ends at so much stack, and its answers."""
    def limit():
        most = kilobytes * 1024
        resource.setrlimit(resource.RLIMIT_STACK, (most, resource.getrlimit(resource.RLIMIT_STACK)[1]))
    words = [PROGRAM, "--workers", str(workers), "--cells", str(cells)]
    session = "".join(line + "\n" for line in session).encode()
    try:
        done = subprocess.run(words, input=session, capture_output=True, check=False, timeout=120, preexec_fn=limit)
    except (OSError, subprocess.SubprocessError):  # so little stack that not even the start of the program has it
        return None
    return done.returncode, done.stdout, done.stderr
