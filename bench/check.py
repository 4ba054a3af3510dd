"""Makes the files and takes the times of bench/check.sh."""

import ctypes
import os
import random
import resource
import statistics
import subprocess
import time

WORK, ROUNDS, COMMAND = os.environ["WORK"], int(os.environ["ROUNDS"]), os.environ["COMMAND"]
library = ctypes.CDLL(os.environ["LIBRARY"])
library.sagepliers_kernel.restype = ctypes.c_uint64
FILES = 10000
ROOM = 393


def is_prime(n):
    return n > 1 and all(n % q for q in range(2, int(n**0.5) + 1))


def kernel(p, a, b, degree, g):
    """The bytes of the certificate, or None where g is no kernel polynomial."""
    words = [1 << 28 | p, 2 << 28 | a, 3 << 28 | b, 6 << 28 | degree] + [8 << 28 | c for c in g] + [15 << 28]
    room = (ctypes.c_uint32 * ROOM)()
    count = library.sagepliers_kernel((ctypes.c_uint32 * len(words))(*words), ctypes.c_size_t(len(words)), room, ctypes.c_size_t(ROOM))
    return bytes(room)[: 4 * count] if count < 1 << 57 else None


def certificates(count):
    """Degree 3: g = x - u is a kernel polynomial where the third division polynomial is 0 at u, and B follows from u and A where that is linear in B."""
    random.seed(13)
    small = [p for p in range(11, 2000) if is_prime(p)]
    large = [p for p in range(2**28 - 4000, 2**28) if is_prime(p)]
    middle = [p for p in range(2**20, 2**20 + 4000) if is_prime(p)]
    found = []
    while len(found) < count:
        p = random.choice(small if len(found) < count // 2 else middle if len(found) < 3 * count // 4 else large)
        a, u = random.randrange(p), random.randrange(1, p)
        b = (a * a - 3 * u**4 - 6 * a * u * u) * pow(12 * u, -1, p) % p
        sheet = kernel(p, a, b, 3, [-u % p, 1])
        if sheet is not None:
            found.append(sheet)
    return found


def spent(command, stdin):
    before = resource.getrusage(resource.RUSAGE_CHILDREN)
    start = time.perf_counter()
    done = subprocess.run(command, stdin=stdin, stdout=subprocess.PIPE, text=True)
    wall = time.perf_counter() - start
    after = resource.getrusage(resource.RUSAGE_CHILDREN)
    return done.stdout.strip(), after.ru_utime + after.ru_stime - before.ru_utime - before.ru_stime, wall


def measure(title, sheets):
    folder = f"{WORK}/{title.replace(' ', '_')}"
    os.makedirs(folder)
    with open(f"{folder}.names", "w") as names:
        for i, sheet in enumerate(sheets):
            name = f"{folder}/{i:05}.bin"
            names.write(name + "\n")
            with open(name, "wb") as file:
                file.write(sheet)
    ways = {
        "the C loop": [f"{WORK}/loop"],
        "sagepliers check": [COMMAND, "check", folder],
        "sagepliers check --jobs 2": [COMMAND, "check", "--jobs", "2", folder],
    }
    times = {way: [] for way in ways}
    for turn in range(ROUNDS + 1):
        for way, command in ways.items():
            with open(f"{folder}.names") as names:
                said, processor, wall = spent(command, names)
            assert f"{FILES} pass, 0 refused" in said, said
            if turn > 0:
                times[way].append((processor, wall))
    processor = {way: statistics.median(t[0] for t in times[way]) for way in ways}
    wall = {way: statistics.median(t[1] for t in times[way]) for way in ways}
    print(f"{title}: {FILES} files, {ROUNDS} rounds, medians")
    for way in ways:
        print(f"  {way:26} processor {processor[way]:.3f} s ({processor[way] / processor['the C loop']:.2f}), "
              f"wall {wall[way]:.3f} s ({wall[way] / wall['the C loop']:.2f})")


def main():
    sheets = certificates(FILES)
    random.shuffle(sheets)
    measure("primes of all sizes", sheets)
    measure("the cheapest certificate", [kernel(1009, 1, 3, 3, [986, 1])] * FILES)


main()
