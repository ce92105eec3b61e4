"""A batch on a cluster of dask, also on one of which a worker is killed half way."""
from __future__ import annotations

import os
import signal
import subprocess
import sys
import tempfile
import threading
import time
import unittest
from importlib.util import find_spec
from pathlib import Path

from tests.places import ROOT, environment, program

SCRIPT = """
import sys
from distributed import Client, LocalCluster
from cgcalc import Session

if __name__ == "__main__":
    with LocalCluster(n_workers=2, threads_per_worker=1, dashboard_address=None) as cluster:
        with Client(cluster) as client:
            session = Session(share=60, cells=600, processes=2, executor=client.get_executor())
            for batch in range(2):
                for reply in session.replies(f"value {{{n}|0}}" for n in range(200)):
                    print(reply, flush=True)
"""
VALUES = ["{%d|0}" % number if number else "*" for number in range(200)]


@unittest.skipUnless(find_spec("distributed"), "this Python has no dask.distributed")
class Dask(unittest.TestCase):
    """Nothing is lost, nothing comes twice, and the order is kept."""

    def setUp(self) -> None:
        holder = tempfile.TemporaryDirectory()
        self.addCleanup(holder.cleanup)
        self.folder = Path(holder.name)
        (self.folder / "batch.py").write_text(SCRIPT)
        self.killed = False

    def test_two_batches_and_a_worker_that_is_killed_in_the_second(self) -> None:
        noted = self.folder / "program.runs"
        script = 'cat > "$0.$$"; echo $PPID >> "$0.runs"; sleep 0.1; exec "$REAL" "$@" < "$0.$$"'
        with subprocess.Popen(
            [sys.executable, str(self.folder / "batch.py")],
            cwd=self.folder,
            env=environment(CG=program(self.folder, script), PYTHONPATH=str(ROOT / "python")),
            stdout=subprocess.PIPE,
            stderr=subprocess.DEVNULL,
        ) as running:
            killer = threading.Thread(target=self.kill, args=(running, noted))
            killer.start()
            written, _ = running.communicate(timeout=300)
            killer.join()
        values = [*VALUES, *VALUES]
        self.assertEqual((running.returncode, written.decode().split("\n")[:-1]), (0, values))
        self.assertTrue(self.killed)

    def kill(self, running: subprocess.Popen[bytes], noted: Path) -> None:
        """Kills the worker that makes the thirtieth run, while that is under way."""
        while running.poll() is None:
            runs = noted.read_text().split() if noted.exists() else []
            if len(runs) >= 30:
                os.kill(int(runs[29]), signal.SIGKILL)
                self.killed = True
                return
            time.sleep(0.02)
