"""A survey on a cluster of Dask on this machine: two workers, which are processes of their own.

    python3 python/tests/dask_survey.py FILE        writes the tasks into the file, and prints the summary
"""
from __future__ import annotations

import importlib
import sys
from typing import Any

from foursaspen import survey_over


def main(file: str) -> None:
    distributed: Any = importlib.import_module("distributed")
    with distributed.LocalCluster(n_workers=2, threads_per_worker=1, dashboard_address=None, memory_limit=0) as cluster, \
            distributed.Client(cluster, timeout=600) as client:
        for done in survey_over(client.get_executor(), 2, 4, file=file):
            print(done, file=sys.stderr)
        print(done.summary, len(client.scheduler_info()["workers"]), "workers", sep="")


if __name__ == "__main__":
    main(sys.argv[1])
