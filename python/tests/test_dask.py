"""Tests gamefile.collect on Dask, with a scheduler and two workers in processes of their own on
127.0.0.1: test_dask.py FOLDER

The last line is 'Dask: N passed, M failed'.
"""
import logging
import os
import signal
import sys
from contextlib import contextmanager
from pathlib import Path

import cases
import gamefile
from distributed import Client, LocalCluster

FOLDER = Path(sys.argv[1]).resolve()


@contextmanager
def two_workers():
    """Gives a client of two workers."""
    with LocalCluster(n_workers=2, processes=True, host="127.0.0.1", dashboard_address=None) as cluster:
        with Client(cluster) as client:
            yield client


def shown(entries):
    """Gives entries in a form that can be compared."""
    return [(path, key, str(error)) for path, key, error in entries]


class Losing:
    """An executor whose first worker is ended as soon as the work is divided."""

    def __init__(self, client):
        self.executor, self.worker = client.get_executor(), min(client.run(os.getpid).values())

    def map(self, *arguments):
        results = self.executor.map(*arguments)
        os.kill(self.worker, signal.SIGKILL)
        return results


def test_answers_as_without_dask():
    with two_workers() as client:
        entries = gamefile.collect(FOLDER, executor=client.get_executor())
    assert shown(entries) == shown(gamefile.collect(FOLDER))
    assert any(entry.key for entry in entries) and any(entry.error for entry in entries)


def test_a_worker_that_ends():
    with two_workers() as client:
        entries = gamefile.collect(FOLDER, executor=Losing(client))
    assert shown(entries) == shown(gamefile.collect(FOLDER))


if __name__ == "__main__":
    logging.disable(logging.CRITICAL)
    sys.exit(cases.run("Dask", vars()))
