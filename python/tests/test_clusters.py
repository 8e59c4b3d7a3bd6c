"""A survey on a cluster of Dask, and on processes of MPI."""
from __future__ import annotations

import tempfile
import unittest
from pathlib import Path

import foursaspen as ca

from .support import ENVIRONMENT, TOP, output, python_with, retried, tool

TESTS = TOP / "python" / "tests"
# That Open MPI runs for root too, and more processes than there are processors.
MPI = ENVIRONMENT | {"OMPI_ALLOW_RUN_AS_ROOT": "1", "OMPI_ALLOW_RUN_AS_ROOT_CONFIRM": "1",
                     "OMPI_MCA_rmaps_base_oversubscribe": "1"}


# That Dask waits for a slow machine.
DASK = ENVIRONMENT | {"DASK_DISTRIBUTED__COMM__TIMEOUTS__CONNECT": "600s", "DASK_DISTRIBUTED__COMM__TIMEOUTS__TCP": "600s",
                      "DASK_DISTRIBUTED__SCHEDULER__WORKER_TTL": "3600s"}


class Clusters(unittest.TestCase):
    def compare(self, words: list[str], environment: dict[str, str]) -> None:
        """Two workers count the rules of two states and width 4, as docs/COMMANDS.md has them, and another executor
        takes the file up. The words run a program that is handed the file."""
        with tempfile.TemporaryDirectory() as folder:
            file = Path(folder) / "survey.jsonl"

            def asked() -> str:
                file.unlink(missing_ok=True)
                return output([*words, str(file)], environment)
            told = retried(asked)
            self.assertEqual(told, f"{ca.Summary(65536, 582, 16, 314, 314, 46, 22)}2workers\n")
            lines = file.read_text().splitlines()
            self.assertEqual(len(lines), 17)
            file.write_text("\n".join(lines[:9]) + "\n")
            *_, end = ca.survey_over(None, 2, 4, file=file)
            self.assertEqual((end.summary.injective, end.resumed), (16, 8 * 4096))

    def test_dask(self) -> None:
        self.compare([python_with("distributed", "python3-distributed"), str(TESTS / "dask_survey.py")], DASK)

    def test_mpi(self) -> None:
        python = python_with("mpi4py.futures", "python3-mpi4py")
        self.compare([tool("mpiexec", "mpi-default-bin"), "-n", "3", python, "-m", "mpi4py.futures",
                      str(TESTS / "mpi_survey.py")], MPI)


if __name__ == "__main__":
    unittest.main()
