"""A survey on processes of MPI: the first one asks, and the others work.

    mpiexec -n 3 python3 -m mpi4py.futures python/tests/mpi_survey.py FILE
"""
from __future__ import annotations

import importlib
import sys
from typing import Any

from foursaspen import survey_over


def main(file: str) -> None:
    futures: Any = importlib.import_module("mpi4py.futures")
    mpi: Any = importlib.import_module("mpi4py.MPI")
    with futures.MPIPoolExecutor() as executor:
        for done in survey_over(executor, 2, 4, file=file):
            print(done, file=sys.stderr)
    print(done.summary, mpi.COMM_WORLD.size - 1, "workers", sep="")


if __name__ == "__main__":
    main(sys.argv[1])
