"""nibabel (Debian's python3-nibabel) on one file: the header text into its own objects.

    nibabel_reader.py FILE [REPEATS]

Prints as creader does; the checksum is 0.
"""
import pathlib
import sys
import time

from nibabel.cifti2.parse_cifti2 import Cifti2Parser


def once(text):
    """The number of locations."""
    parser = Cifti2Parser()
    parser.parse(string=text)
    return sum(model.index_count for one in parser.header.matrix for model in one.brain_models)


def main():
    text = pathlib.Path(sys.argv[1]).read_bytes()
    times, records, number = [], 0, 0
    for _ in range(int(sys.argv[2]) if len(sys.argv) > 2 else 1):
        begin = time.process_time()
        try:
            records = once(text)
        except Exception:  # whatever it refuses a text with
            number = 1
        times.append((time.process_time() - begin) * 1e3)
    times.sort()
    peak = next(line.split()[1] for line in open("/proc/self/status") if line.startswith("VmHWM"))
    print(f"nibabel {len(text)} {records} {number} {times[len(times) // 2]:.3f} {times[0]:.3f} 0 {peak}")


if __name__ == "__main__":
    main()
