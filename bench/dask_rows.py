"""Measures pzic.dask and pandas in Dask: `dask_rows.py SOURCE WORK ROWS`."""

import glob
import os
import shutil
import sys
import time

import dask.dataframe
import distributed
import numpy
import pandas

import pzic
import pzic.dask

FILES = 20
NAMES = numpy.array(["Europe/Dublin", "America/New_York", "Asia/Kathmandu", "Australia/Lord_Howe", "Africa/Cairo"])


def make(work, rows):
    chance = numpy.random.default_rng(1)
    for number in range(FILES):
        frame = pandas.DataFrame({"zone": NAMES[chance.integers(0, len(NAMES), rows // FILES)]})
        frame["instant"] = chance.integers(0, 4_000_000_000, rows // FILES)
        frame.to_csv(f"{work}/column-{number:02}.csv", header=False, index=False)


def by_pzic(zones, work, client):
    pzic.dask.convert(zones, f"{work}/column-*.csv", f"{work}/parts", client=client, blocksize="8MiB")


def local(frame):
    """Return the frame with local time by pandas, zone by zone."""
    parts = []
    for zone, rows in frame.groupby("zone"):
        times = pandas.to_datetime(rows["instant"], unit="s", utc=True).dt.tz_convert(zone)
        parts.append(rows.assign(local=times.dt.strftime("%Y-%m-%dT%H:%M:%S,%z,%Z")))
    return pandas.concat(parts).sort_index() if parts else frame.assign(local="")


def by_pandas(zones, work, client):
    frame = dask.dataframe.read_csv(f"{work}/column-*.csv", names=["zone", "instant"], header=None, blocksize="8MB")
    made = frame.map_partitions(local, meta={"zone": "object", "instant": "int64", "local": "object"})
    made.to_csv(f"{work}/parts/part-*.csv", header=False, index=False)


def main(source, work, rows):
    make(work, int(rows))
    zones = pzic.Tree.compile(source)
    for workers in 1, 3:
        with distributed.Client(n_workers=workers, threads_per_worker=1, dashboard_address=None) as client:
            for what in by_pzic, by_pandas:
                took = []
                for _ in range(2):
                    shutil.rmtree(f"{work}/parts", ignore_errors=True)
                    os.mkdir(f"{work}/parts")
                    start = time.perf_counter()
                    what(zones, work, client)
                    took.append(time.perf_counter() - start)
                size = sum(map(os.path.getsize, glob.glob(f"{work}/parts/*")))
                print(f"{what.__name__}, {workers} workers: {min(took):.2f} s, {size} bytes")


if __name__ == "__main__":
    main(*sys.argv[1:])
