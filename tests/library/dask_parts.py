"""Compares parts that Dask's workers make with runs of the program: `dask_parts.py PROGRAM SOURCE WORK`."""

import os
import random
import subprocess
import sys
import threading
import time

import distributed

import pzic
import pzic.dask

FILES, LINES, BLOCK = 20, 400, 2500
NAMES = ["Europe/Dublin", "America/New_York", "Asia/Kathmandu", "Australia/Lord_Howe", "Africa/Monrovia"]
BAD = [b"Nowhere,0", b"Europe/Dublin,x", b"Europe/Dublin", b'Europe/Dublin,"1']


def make_files(folder, faults, header=False):
    """Write files of random rows, in some of which lines have faults, and return their paths."""
    os.mkdir(folder)
    chance = random.Random(folder.rsplit("/", 1)[1])
    paths = []
    for number in range(FILES):
        lines = [b"%s,%d" % (chance.choice(NAMES).encode(), chance.randrange(-3 * 10**9, 9 * 10**9)) for _ in range(LINES)]
        if faults and number % 3 == 2:
            for row in chance.sample(range(LINES), 3):
                lines[row] = chance.choice(BAD)
            lines.insert(chance.randrange(LINES), b"")
        paths.append(f"{folder}/column-{number:02}.csv")
        with open(paths[-1], "wb") as file:
            file.write(b"\n".join(([b"zone,instant"] if header else []) + lines) + (b"" if number % 2 else b"\n"))
    return paths


def start(work, number):
    """Start a worker of the scheduler, without a nurse, so that who is killed stays dead."""
    words = ["-m", "distributed.cli.dask_worker", "--scheduler-file", f"{work}/scheduler.json", "--nthreads", "1", "--no-nanny"]
    words += ["--no-dashboard", "--host", "127.0.0.1", "--name", f"worker-{number}", "--local-directory", f"{work}/worker-{number}"]
    return subprocess.Popen([sys.executable, *words], stdout=subprocess.DEVNULL, stderr=subprocess.DEVNULL)


def one_run(program, zones, path, options):
    """Return what the program answers for a file: its status, its rows, and its faults."""
    list_ = f"{path}.faults"
    keeps = ["--faults", list_] if "--keep-going" in options else []
    with open(path, "rb") as column:
        done = subprocess.run([program, "convert", *zones, *options, *keeps], stdin=column, capture_output=True, check=False)
    faults = []
    if keeps:
        with open(list_, encoding="ascii") as file:
            faults = [(int(row), kind) for row, kind in (line.strip().split(",") for line in file)]
    elif done.returncode:
        row, kind = done.stderr.decode().splitlines()[-1].removeprefix("row ").split(": ")
        faults = [(int(row), kind)]
    return done.returncode, done.stdout, faults


def line_of(path, row, header):
    """Return the number of the line of a row: lines without a byte are none."""
    with open(path, "rb") as file:
        numbers = [number for number, line in enumerate(file.read().split(b"\n"), 1) if line]
    return numbers[row - 1 + header]


def read(parts):
    octets = b""
    for part in parts:
        with open(part, "rb") as file:
            octets += file.read()
    return octets


def expect(what, got, wanted):
    if got != wanted:
        raise SystemExit(f"dask: {what}: {str(got)[:300]}, and not {str(wanted)[:300]}")


def compare(what, program, zones, paths, into, client, told, options, layout):
    """Compare the parts of a run with runs of the program for each file, all of which go on after faults."""
    done = []
    report = pzic.dask.convert(told, paths, into, client=client, blocksize=BLOCK, progress=done.append, **layout)
    expect(f"{what}: progress", done, [1] * len(report.parts))
    header = int(layout.get("header", False))
    text, faults = b"", []
    for path in paths:
        status, rows, own = one_run(program, zones, path, ["--records", "lines", *options])
        text += rows
        faults += [pzic.dask.Fault(path, line_of(path, row, header), row, kind) for row, kind in own]
    expect(f"{what}: faults", report.faults, tuple(faults))
    expect(f"{what}: rows", read(report.parts), text)
    expect(f"{what}: parts", len(report.parts) > 2 * FILES, True)
    again = pzic.dask.convert(told, paths, into, client=client, blocksize=BLOCK, **layout)
    expect(f"{what}: again", again, report._replace(made=0))
    os.remove(report.parts[3])
    expect(f"{what}: one part", pzic.dask.convert(told, paths, into, client=client, blocksize=BLOCK, **layout), report._replace(made=1))
    print(f"dask: {what}: {report.rows} rows in {len(report.parts)} parts, {len(report.faults)} faults")


def first_fault(program, zones, paths, into, client, told, options, layout):
    """Compare the first fault with that of the files one after another."""
    report = pzic.dask.convert(told, paths, into, client=client, blocksize=BLOCK, **layout)
    for path in paths:
        status, rows, own = one_run(program, zones, path, ["--records", "lines", *options])
        if status:
            break
    row, kind = own[0]
    expect("first fault", report.fault, pzic.dask.Fault(path, line_of(path, row, 0), row, kind))
    expect("faults up to it", report.faults, (report.fault,))
    print(f"dask: the first fault is {report.fault.kind} of row {row}")


def killed(program, zones, paths, into, client, told, workers):
    """Kill a worker in the middle of a run."""
    # They keep the workers busy, so that the kill comes before the last block.
    futures = client.map(time.sleep, [0.4] * 12, pure=False)
    threading.Timer(0.7, workers[1].kill).start()
    report = pzic.dask.convert(told, paths, into, client=client, blocksize=BLOCK)
    expect("killed: rows", read(report.parts), b"".join(one_run(program, zones, path, [])[1] for path in paths))
    client.gather(futures)
    expect("killed: workers", len(client.scheduler_info()["workers"]), 2)
    expect("killed: leftovers", [name for name in os.listdir(into) if name.startswith(".")], [])
    print(f"dask: {report.rows} rows, and one of three workers killed in the middle")


def by_tree(program, source, work, paths, client):
    """Compare parts by a tree, which each worker reads, with runs of the program."""
    folder = f"{work}/tree"
    subprocess.run([program, "build", folder, source], check=True)
    tree = pzic.Tree(folder)
    compare("by a tree", program, ["--tree", folder], paths, f"{work}/b", client, tree, ["--keep-going"], {"keep_going": True})
    sent = pzic.dask._sent(tree)
    expect("a tree that is sent", (sent.folder, sent.texts), (folder, ()))
    try:
        pzic.dask._zones_made(sent._replace(digest="another"))
    except RuntimeError as error:
        expect("another tree", str(error), f"{folder} has other files here")
    else:
        raise SystemExit("dask: another tree was taken")


def frames(zones):
    """Compare local time in frames and arrays of Dask with that of arrays."""
    try:
        import dask.array
        import dask.dataframe
        import numpy
        import pandas
    except ImportError:
        print("skipped: frames and arrays of Dask: pandas isn't there")
        return
    frame = pandas.DataFrame({"zone": NAMES * 40, "instant": numpy.arange(200) * 10**7})
    made = pzic.dask.add_local(dask.dataframe.from_pandas(frame, npartitions=3), zones).compute()
    columns = zones.convert_columns(frame["zone"], frame["instant"])
    expect("frames", list(made["offset"]), list(columns.offsets))
    expect("frames", list(made["local"]), list(pandas.Series(columns.local)))
    expect("frames", list(made["abbreviation"]), list(columns.abbreviations))
    expect("frames", (set(made["status"]), str(made["status"].dtype)), ({0}, "uint8"))
    parts = dask.dataframe.from_pandas(frame.assign(zone=["No/Such"] + list(frame["zone"][1:])), npartitions=3)
    made = pzic.dask.add_local(parts, zones, errors="coerce").compute()
    expect("statuses", list(made["status"]), [pzic.NO_ZONE] + [0] * 199)
    made = made.assign(shown=made["local"].fillna(pandas.Timestamp(0)), seconds=made["instant"])
    for column in "shown", "seconds":
        parts = dask.dataframe.from_pandas(made[["zone", column]], npartitions=3)
        got = pzic.dask.add_instant(parts, zones, locals=column, ambiguous="compatible", errors="coerce")
        want, statuses = zones.instant_columns(made["zone"], made[column], "compatible", "coerce")
        expect("instants", list(got["instant"].compute()), list(pandas.Series(want)))
        expect("instants", (list(got["status"].compute()), got["instant"].dtype), (list(statuses), want.dtype))
    instants = numpy.arange(1000) * 10**6
    got = pzic.dask.offsets(zones["Europe/Dublin"], dask.array.from_array(instants, chunks=300)).compute()
    expect("arrays", list(got), list(zones["Europe/Dublin"].convert_array(instants)[0]))
    print("dask: frames and arrays")


def of_another_release(source, work):
    """A frame and an array by a tree are refused where the folder has other files in the meantime."""
    try:
        import dask
        import dask.array
        import dask.dataframe
        import numpy
        import pandas
    except ImportError:
        return
    folder = f"{work}/changing"
    os.mkdir(folder)
    tree = pzic.Tree(folder)
    compiled = pzic.Tree.compile(source)

    def place(like):
        with open(f"{folder}/Zone", "wb") as file:
            file.write(compiled.data(like))

    place("Europe/Dublin")
    frame = dask.dataframe.from_pandas(pandas.DataFrame({"zone": ["Zone"] * 4, "instant": numpy.arange(4)}), npartitions=2)
    lazy = pzic.dask.add_local(frame, tree)
    array = pzic.dask.offsets(tree["Zone"], dask.array.from_array(numpy.arange(4), chunks=2))
    place("Europe/Rome")
    pzic.dask._made.clear()
    try:
        lazy.compute(scheduler="synchronous")
    except RuntimeError as error:
        expect("another release", str(error), f"{folder} has other files here")
    else:
        raise SystemExit("dask: another release: no error")
    expect("another release", list(array.compute(scheduler="synchronous")), [compiled["Europe/Dublin"].utcoffset(0)] * 4)
    try:
        array.compute(scheduler="processes")
    except Exception as error:
        expect("another release", "isn't the file that was pickled" in str(error), True)
    else:
        raise SystemExit("dask: another release: no error by processes")
    print("dask: no other release")


def main(program, source, work):
    clean, faulty = make_files(f"{work}/clean", False), make_files(f"{work}/faulty", True)
    headed = make_files(f"{work}/headed", True, header=True)
    words = ["-m", "distributed.cli.dask_scheduler", "--host", "127.0.0.1", "--port", "0", "--no-dashboard"]
    words += ["--scheduler-file", f"{work}/scheduler.json"]
    scheduler = subprocess.Popen([sys.executable, *words], stdout=subprocess.DEVNULL, stderr=subprocess.DEVNULL)
    workers = [start(work, number) for number in range(3)]
    try:
        with distributed.Client(scheduler_file=f"{work}/scheduler.json", timeout=60) as client:
            client.wait_for_workers(3, timeout=60)
            compiled = pzic.Tree.compile(source)
            going = {"keep_going": True}
            compare("by a source", program, [source], faulty, f"{work}/a", client, compiled, ["--keep-going"], going)
            by_tree(program, source, work, faulty, client)
            options = ["--keep-going", "--header", "--append"]
            compare("with headers", program, [source], headed, f"{work}/c", client, compiled, options, {**going, "header": True, "append": True})
            first_fault(program, [source], faulty, f"{work}/d", client, compiled, [], {})
            first_fault(program, [source], clean, f"{work}/g", client, compiled, ["--max-record", "25"], {"max_record": 25})
            frames(compiled)
            frames(pzic.Tree(f"{work}/tree"))
            of_another_release(source, work)
            killed(program, [source], clean, f"{work}/e", client, compiled, workers)
            address = client.scheduler.address
        words = ["convert", "--source", source, "--max-record", "100", "--scheduler", address, "--into", f"{work}/f", *clean]
        subprocess.run([sys.executable, "-m", "pzic.dask", *words], check=True, stderr=subprocess.DEVNULL)
        parts = sorted(f"{work}/f/{name}" for name in os.listdir(f"{work}/f") if not name.endswith(".json"))
        expect("by its command", read(parts), b"".join(one_run(program, [source], path, [])[1] for path in clean))
        print("dask: by its command")
    finally:
        for process in [*workers, scheduler]:
            process.kill()
            process.wait()


if __name__ == "__main__":
    main(*sys.argv[1:])
