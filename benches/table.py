"""table.py FILE..: one table of lines `PEER TASK INPUT NANOSECONDS CHECKSUM PLACES`.

Each cell has milliseconds, and in brackets the ratio to the fastest peer, ours left aside, that gives the whole, sorted
answer with the checksum that ours has. Below the table stand the checksums that disagree.
"""

import sys

OURS = ("ours", "port")
PARTIAL = ("unsorted", "counts")


def read(paths):
    """{task: {peer: {input: (nanoseconds, checksum)}}}, in the order of the files."""
    tasks = {}
    for path in paths:
        with open(path) as lines:
            for line in lines:
                words = line.split()
                if len(words) == 6:
                    peer, task, name, time, checksum, _ = words
                    tasks.setdefault(task, {}).setdefault(peer, {})[name] = (int(time), checksum)
    return tasks


def is_whole(peer):
    return peer not in OURS and not any(word in peer for word in PARTIAL)


def fastest(peers, name, checksum):
    times = [runs[name][0] for peer, runs in peers.items() if is_whole(peer) and name in runs and runs[name][1] == checksum]
    return min(times, default=None)


def cell(runs, name, best):
    if name not in runs:
        return "-"
    time = runs[name][0]
    ratio = "-" if best is None else "%.2f" % (time / best)
    return "%.1f (%s)" % (time / 1e6, ratio)


def main(paths):
    tasks = read(paths)
    names = []
    for peers in tasks.values():
        for runs in peers.values():
            names += [name for name in runs if name not in names]
    print("| Task | Program | " + " | ".join(name.removesuffix(".mtx") for name in names) + " |")
    print("|---" * (len(names) + 2) + "|")
    disagreeing = []
    for task, peers in tasks.items():
        ours = next((runs for peer, runs in peers.items() if peer in OURS), {})
        for peer, runs in peers.items():
            cells = []
            for name in names:
                checksum = ours[name][1] if name in ours else None
                cells.append(cell(runs, name, fastest(peers, name, checksum)))
                if name in runs and checksum is not None and runs[name][1] != checksum:
                    disagreeing.append("%s %s %s: %s, ours %s" % (task, name, peer, runs[name][1], checksum))
            print("| %s | %s | " % (task, peer) + " | ".join(cells) + " |")
    print("\nMilliseconds, and the ratio to the fastest peer with the whole, sorted answer.")
    print("Checksums that disagree: " + ("none" if not disagreeing else ""))
    for line in disagreeing:
        print("  " + line)


if __name__ == "__main__":
    main(sys.argv[1:])
