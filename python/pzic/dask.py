"""Columns that many machines convert, by Dask.

No row depends on another, so :func:`convert` cuts files between lines, and workers convert the blocks by the
library: each block becomes one part, whole or not at all. ``python3 -m pzic.dask convert`` does the same for
a shell. Needs ``dask`` and ``distributed``.
"""

from __future__ import annotations

import argparse
import importlib
import json
import os
import re
import sys
from typing import Any, Dict, List, NamedTuple, Optional, Sequence, Tuple, Union

from pzic import DAYLIGHT, Compiled, Files, Tree, __version__
from pzic._progress import Progress, teller
from pzic._rows import Layout
from pzic._tree import checksum
from pzic._words import Ambiguous, Errors

_Zones = Union[Tree, Compiled]

# What has no types of its own.
_dask: Any = importlib.import_module("dask")
_bytes: Any = importlib.import_module("dask.bytes")
_distributed: Any = importlib.import_module("distributed")
_fsspec: Any = importlib.import_module("fsspec")

#: The bytes that a block has by default.
BLOCK = "64MiB"
_LINE_END = re.compile(rb"\r\n|\n|\r")


class Fault(NamedTuple):
    """A row that has a fault: its file, the number of its line and of its row there, both from 1 and counted
    over the whole file, and the name of the fault's kind. ``line`` is ``None`` where a block has double
    quotes and records of CSV."""

    path: str
    line: Optional[int]
    row: int
    kind: str


class Report(NamedTuple):
    """What a run made: how many rows all parts have, without headers; the faults, in the order of the files
    and their rows; the fault that ended the run, the first of all, or ``None``; the paths of the parts, in
    that order; how many of them this run made; and the checksum of the zones."""

    rows: int
    faults: Tuple[Fault, ...]
    fault: Optional[Fault]
    parts: Tuple[str, ...]
    made: int
    zones: str


class _Sent(NamedTuple):
    """What workers make zones of: the texts of a source, or the path of a tree; and the checksum of the texts
    or of the tree's files."""

    digest: str
    texts: Tuple[bytes, ...]
    folder: Optional[str]


class _Job(NamedTuple):
    """A block to convert: the index of its file, whether it is the file's first, and its part's name."""

    file: int
    first: bool
    name: str


#: The zones that this process made, by their checksum.
_made: Dict[str, _Zones] = {}


def _digest(*parts: object) -> str:
    return checksum(*(part if isinstance(part, bytes) else repr(part).encode() for part in parts))


def _tree_digest(tree: Tree) -> str:
    """Return the checksum of the names that a tree lists, and of their files."""
    return _digest("tree", *(part for name in tree for part in (name, tree.data(name))))


def _sent(zones: _Zones) -> _Sent:
    """Return what workers are sent of zones."""
    if isinstance(zones, Tree):
        return _Sent(_tree_digest(zones), (), zones.folder)
    return _Sent(_digest(*zones.texts), zones.texts, None)


def _zones(sent: _Sent) -> _Zones:
    """Return the zones of this process, made once."""
    zones = _made.get(sent.digest)
    if zones is None:
        zones = _made.setdefault(sent.digest, _zones_made(sent))
    return zones


def _zones_made(sent: _Sent) -> _Zones:
    if sent.folder is None:
        return Compiled(*sent.texts)
    tree = Tree(sent.folder)
    if _tree_digest(tree) != sent.digest:
        raise RuntimeError(f"{sent.folder} has other files here")
    return tree


def _lines(block: bytes, layout: Layout, skipped: int, rows: Sequence[int]) -> List[Optional[int]]:
    """Return the numbers of the lines of rows, from 1, where each line is a record."""
    if not rows or (layout.records == "csv" and b'"' in block):
        return [None] * len(rows)
    numbers = [n for n, line in enumerate(_LINE_END.split(block), 1) if line]
    return [numbers[row - 1 + skipped] for row in rows]


def _layout_of(layout: Layout, first: bool) -> Layout:
    """Return the layout of a block: only the first of a file has a header."""
    return layout if first else layout._replace(header=False, skip_header=False)


def _write(url: str, options: Dict[str, Any], name: str, octets: bytes) -> None:
    """Write a file whole or not at all: under another name first."""
    fs, folder = _fsspec.core.url_to_fs(url, **options)
    path, early = f"{folder}/{name}", f"{folder}/.{name}.{os.urandom(8).hex()}"
    with fs.open(early, "wb") as file:
        file.write(octets)
    if "file" in (fs.protocol if isinstance(fs.protocol, (list, tuple)) else (fs.protocol,)):
        os.replace(early, path)
    else:
        fs.mv(early, path)


def _make(block: bytes, sent: _Sent, layout: Layout, job: _Job, url: str, options: Dict[str, Any]) -> Dict[str, Any]:
    """Convert a block, write its part unless a fault ended it, and return what its report says."""
    own = _layout_of(layout, job.first)
    rows = _zones(sent).rows(block, **own._asdict())
    skipped = int(own.header or own.skip_header)
    lines = _lines(block, own, skipped, [fault.row for fault in rows.faults])
    noted = {
        "rows": rows.number,
        "lines": len(_LINE_END.findall(block)),
        "faults": [[line, fault.row, fault.kind] for line, fault in zip(lines, rows.faults)],
        "ended": rows.ended,
    }
    if not rows.ended:
        _write(url, options, job.name + ".json", json.dumps(noted).encode())
        _write(url, options, job.name, rows.text)
    return noted


def _noted(url: str, options: Dict[str, Any], name: str) -> Optional[Dict[str, Any]]:
    """Return the report of a part that is there."""
    fs, folder = _fsspec.core.url_to_fs(url, **options)
    if not fs.exists(f"{folder}/{name}"):
        return None
    try:
        noted: Dict[str, Any] = json.loads(fs.cat_file(f"{folder}/{name}.json"))
        return noted
    except (OSError, ValueError):
        return None


def _report(paths: Sequence[str], jobs: Sequence[_Job], all_noted: Sequence[Dict[str, Any]], url: str, made: int, zones: str) -> Report:
    """Return the report of parts in the order of the files and their blocks."""
    faults: List[Fault] = []
    ends: List[Fault] = []
    file, rows, lines = -1, 0, 0
    for job, noted in zip(jobs, all_noted):
        if job.file != file:
            file, rows, lines = job.file, 0, 0
        for line, row, kind in noted["faults"]:
            faults.append(Fault(paths[file], None if line is None else lines + line, rows + row, kind))
        if noted["ended"]:
            ends.append(faults[-1])
        rows, lines = rows + noted["rows"], lines + noted["lines"]
    end = ends[0] if ends else None
    if end is not None:
        # What comes after the first fault isn't of this run.
        faults = faults[: faults.index(end) + 1]
    parts = [f"{url.rstrip('/')}/{job.name}" for job, noted in zip(jobs, all_noted) if not noted["ended"]]
    count = sum(noted["rows"] for noted in all_noted if not noted["ended"])
    return Report(count, tuple(faults), end, tuple(parts), made, zones)


def _client(client: Any) -> Tuple[Any, bool]:
    """Return a client, and whether it is one for this run alone: of a cluster of this machine's cores."""
    if client is not None:
        return client, False
    try:
        return _distributed.get_client(), False
    except ValueError:
        return _distributed.Client(), True


def convert(
    zones: _Zones,
    paths: Union[str, Sequence[str]],
    into: str,
    storage_options: Optional[Dict[str, Any]] = None,
    client: Any = None,
    blocksize: Union[int, str, None] = BLOCK,
    progress: Union[bool, Progress] = False,
    **layout: Any,
) -> Report:
    """Convert columns by the zones of a source or of a tree, and write a part for each block. Workers are sent a
    source's texts, or a tree's path and the checksum of its files: each reads the folder for itself, and fails
    if it has other files there.

    ``paths`` are local paths, globs or URLs of fsspec. The words of ``layout`` are those of
    :class:`pzic.Layout`; here ``records`` is ``"lines"`` unless it is given, since files are cut between lines;
    with ``"csv"`` a file is one block. With ``header`` or ``skip_header`` each file has one. The parts are those of
    one call of ``pzic convert`` for each file, in order of their names. A run that is repeated makes
    only the parts that are missing. Without ``keep_going`` the report has the first fault, by the order of the
    files and rows, whatever finished first; the block of a fault that ends a run has no part. ``progress`` is told
    of each block that is done: a function, or what has a method ``update``, as ``tqdm``; by ``True`` Dask shows its own bar.
    """
    options = storage_options or {}
    words: Dict[str, Any] = {"records": "lines", **layout}
    by = Layout(**words)
    by.numbers()
    size = None if by.records == "csv" else blocksize
    _, blocks, names = _bytes.read_bytes(
        paths, delimiter=b"\n", blocksize=size, sample=False, include_path=True, **options
    )
    sent = _sent(zones)
    fs, folder = _fsspec.core.url_to_fs(into, **options)
    fs.makedirs(folder, exist_ok=True)
    jobs, tasks = [], []
    for file, own in enumerate(blocks):
        for number, block in enumerate(own):
            key = _digest(__version__, sent.digest, tuple(by), number == 0, str(block.key))[:16]
            jobs.append(_Job(file, number == 0, f"part-{file:06}-{number:06}-{key}"))
            tasks.append(block)
    noted = [_noted(into, options, job.name) for job in jobs]
    missing = [n for n, one in enumerate(noted) if one is None]
    cluster, own_client = _client(client)
    try:
        if missing:
            # A task of its own: each worker gets it once, also one that comes later.
            given = _dask.delayed(sent, traverse=False)
            make = _dask.delayed(_make, pure=False)
            lazy = [make(tasks[n], given, by, jobs[n], into, options) for n in missing]
            futures = cluster.compute(lazy)
            if progress is True:
                _distributed.progress(futures)
            elif progress is not False:
                tell = teller(progress)
                for _ in _distributed.as_completed(futures):
                    tell(1)
            for n, one in zip(missing, cluster.gather(futures)):
                noted[n] = one
    finally:
        if own_client:
            cluster.close()
    done = [one for one in noted if one is not None]
    made = sum(1 for n in missing if not done[n]["ended"])
    return _report(names, jobs, done, into, made, sent.digest)


def add_local(
    frame: Any,
    zones: Union[_Zones, Files],
    names: str = "zone",
    instants: str = "instant",
    errors: Errors = "raise",
) -> Any:
    """Return a Dask frame with the columns ``offset``, ``local``, ``daylight``, ``abbreviation`` and ``status`` added, by
    its columns of zones' names and of instants, as :meth:`pzic.Tree.convert_columns` tells them. Workers are sent what
    :func:`convert` sends them, and all bytes of :class:`pzic.Files`."""
    added = {"offset": 0, "local": _nothing("datetime64[ns]"), "daylight": False, "abbreviation": _nothing("object")}
    meta = frame._meta.assign(**added, status=_nothing("uint8"))
    return frame.map_partitions(_with_local, _sent_of(zones), names, instants, errors, meta=meta)


def add_instant(
    frame: Any,
    zones: Union[_Zones, Files],
    names: str = "zone",
    locals: str = "local",
    ambiguous: Ambiguous = "reject",
    errors: Errors = "raise",
) -> Any:
    """Return a Dask frame with the columns ``instant`` and ``status`` added, by its columns of zones' names and of local
    times, as :meth:`pzic.Tree.instant_columns` tells them. Workers are sent what :func:`add_local` sends them."""
    kind = "datetime64[ns]" if frame._meta[locals].dtype.kind in "MO" else "int64"
    meta = frame._meta.assign(instant=_nothing(kind), status=_nothing("uint8"))
    return frame.map_partitions(_with_instant, _sent_of(zones), names, locals, ambiguous, errors, kind, meta=meta)


def _sent_of(zones: Union[_Zones, Files]) -> Any:
    return _dask.delayed(zones if isinstance(zones, Files) else _sent(zones), traverse=False)


def _nothing(kind: str) -> Any:
    pandas: Any = importlib.import_module("pandas")
    return pandas.Series([], dtype=kind)


def _with_local(frame: Any, sent: Union[_Sent, Files], names: str, instants: str, errors: Errors) -> Any:
    zones = sent if isinstance(sent, Files) else _zones(sent)
    # What came from another worker may not be aligned: a copy is.
    own = frame[[names, instants]].copy()
    columns = zones.convert_columns(own[names], own[instants], errors)
    return frame.assign(
        offset=columns.offsets.astype("int64"),
        local=columns.local.astype("datetime64[ns]"),
        daylight=columns.flags == DAYLIGHT,
        abbreviation=columns.abbreviations.astype("object"),
        status=columns.statuses,
    )


def _with_instant(
    frame: Any, sent: Union[_Sent, Files], names: str, locals: str, ambiguous: Ambiguous, errors: Errors, kind: str
) -> Any:
    zones = sent if isinstance(sent, Files) else _zones(sent)
    own = frame[[names, locals]].copy()
    made, statuses = zones.instant_columns(own[names], own[locals], ambiguous, errors)
    return frame.assign(instant=made.astype(kind), status=statuses)


def offsets(zone: Any, instants: Any) -> Any:
    """Return the UT offsets of a zone at the instants of a Dask array. Workers are sent the zone as a pickle: of a
    zone of a folder the path and the checksum, and they fail if they have another file there."""
    import numpy

    return instants.map_blocks(_offsets, zone, dtype=numpy.int32)


def _offsets(instants: Any, zone: Any) -> Any:
    import numpy

    own = numpy.require(instants, requirements=["C", "ALIGNED"])
    return numpy.asarray(zone.convert_array(own)[0], dtype=numpy.int32)


def _words() -> argparse.ArgumentParser:
    parser = argparse.ArgumentParser(prog="python3 -m pzic.dask", description="Converts columns by many workers.")
    command = parser.add_subparsers(dest="command", required=True).add_parser("convert")
    by = command.add_mutually_exclusive_group(required=True)
    by.add_argument("--source", action="append", help="a text of the source")
    by.add_argument("--tree", help="a folder of TZif files")
    command.add_argument("--into", required=True, help="the folder of the parts")
    command.add_argument("--scheduler", help="the address of Dask's scheduler")
    command.add_argument("--blocksize", default=BLOCK)
    for name, kind in (("zone", str), ("zone-field", int), ("time-field", int), ("delimiter", str), ("fields", int), ("max-record", int), ("prefix", str)):
        command.add_argument(f"--{name}", type=kind)
    command.add_argument("--from", dest="source_form", choices=("count", "seconds", "rfc3339", "utc", "local"))
    command.add_argument("--ambiguous", choices=("reject", "earlier", "later", "compatible"))
    command.add_argument("--unit", choices=("s", "ms", "us", "ns"))
    command.add_argument("--records", choices=("csv", "lines"))
    command.add_argument("--quotes", choices=("strict", "lenient"))
    command.add_argument("--style", choices=("fields", "iso"))
    command.add_argument("--only", type=lambda words: tuple(words.split(",")))
    command.add_argument("--empty", choices=("fault", "keep"))
    for name in ("header", "skip-header", "append", "replace", "keep-going"):
        command.add_argument(f"--{name}", action="store_true")
    command.add_argument("paths", nargs="+", metavar="FILE")
    return parser


def _layout_words(words: argparse.Namespace) -> Dict[str, Any]:
    names = set(Layout._fields) - {"source"}
    layout = {name: value for name, value in vars(words).items() if name in names and value is not None and value is not False}
    if words.source_form:
        layout["source"] = words.source_form
    return layout


def main(arguments: Optional[Sequence[str]] = None) -> int:
    """Convert columns as the words of a command line say, and return the exit status."""
    words = _words().parse_args(arguments)
    zones: _Zones = Tree(words.tree) if words.tree else Tree.compile(*words.source)
    client = _distributed.Client(words.scheduler) if words.scheduler else _distributed.Client()
    with client:
        report = convert(
            zones,
            words.paths,
            words.into,
            client=client,
            blocksize=words.blocksize,
            progress=sys.stderr.isatty(),
            **_layout_words(words),
        )
    for fault in report.faults:
        print(f"{fault.path}: line {fault.line}, row {fault.row}: {fault.kind}", file=sys.stderr)
    print(f"{report.rows} rows in {len(report.parts)} parts, {report.made} made now", file=sys.stderr)
    return 1 if report.faults else 0


if __name__ == "__main__":
    # The module of this name, whose functions workers find.
    from pzic.dask import main as run

    sys.exit(run())
