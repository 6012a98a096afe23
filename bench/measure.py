"""Runs a command and says how long it took and how much memory it held at most.

    measure.py STATUSES INPUT OUTPUT COMMAND WORD..

The command reads the file INPUT and writes the file OUTPUT. It must end with one of STATUSES, which
stand with commas between them. One line is printed: wall seconds and
peak memory in kilobytes. The peak is what the system notes of the program itself (VmHWM), looked at every two milliseconds, so
that of a run of a few milliseconds may be too low.
"""
import re
import subprocess
import sys
import threading
import time


def peak_of(pid):
    try:
        with open(f"/proc/{pid}/status") as status:
            found = re.search(r"VmHWM:\s+(\d+) kB", status.read())
    except OSError:
        return 0
    return int(found[1]) if found else 0


def watch(process, peaks):
    while process.returncode is None:
        peaks.append(peak_of(process.pid))
        peaks[:] = [max(peaks)]
        time.sleep(0.002)


def main(wanted, source, target, command):
    with open(source, "rb") as into, open(target, "wb") as out:
        begin = time.monotonic()
        process = subprocess.Popen(command, stdin=into, stdout=out)
        peaks = [peak_of(process.pid)]
        watcher = threading.Thread(target=watch, args=(process, peaks))
        watcher.start()
        status = process.wait()
        seconds = time.monotonic() - begin
        watcher.join()
    if str(status) not in wanted.split(","):
        sys.exit(f"measure.py: {command[0]} ended with {status} and not with {wanted}")
    print(f"{seconds:.3f} {max(peaks)}")


if __name__ == "__main__":
    if len(sys.argv) < 5:
        sys.exit(__doc__)
    main(sys.argv[1], sys.argv[2], sys.argv[3], sys.argv[4:])
