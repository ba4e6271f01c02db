"""What the scripts of this folder share: one session of the built program, asked over pipes, and a plain scan in C++ beside it."""

import atexit
import os
import shutil
import subprocess
import sys
import tempfile
import threading
import time

HERE = os.path.dirname(os.path.dirname(os.path.realpath(__file__)))
PROGRAM = f"{HERE}/crates/gph_server/out/gph_server"
BITS = 64
WORDS = ["run", "--bits", str(BITS)]
# the queries that a session may have open at a time
OPEN = 16


def numbers(words, usage, *defaults):
    """The numbers that the words give, with those of the end left out as by default; and the program is there, built."""
    if len(words) > len(defaults) or not all(word.isdigit() for word in words):
        sys.exit(usage.strip())
    if subprocess.run([f"{HERE}/gph", *WORDS], stdin=subprocess.DEVNULL, check=False).returncode != 0:
        sys.exit("the program was not built")
    return [*map(int, words), *defaults[len(words) :]]


def adds(codes, bits=BITS):
    """The lines that add codes of so many bits under their places as keys."""
    return b"".join(b"add %d %0*x\n" % (key, bits // 4, code) for key, code in enumerate(codes))


def uniform(chance, number, bits=BITS):
    """Codes whose bits are drawn one by one."""
    return [chance.getrandbits(bits) for _ in range(number)]


def chains(chance, number, bits=BITS):
    """Codes of which each but every sixteenth is the one before it with one bit turned."""
    codes = []
    for at in range(number):
        codes.append(chance.getrandbits(bits) if at % 16 == 0 else codes[-1] ^ 1 << chance.randrange(bits))
    return codes


def skewed(chance, number, bits=BITS):
    """Codes each bit of which is 1 with a chance of its own, from 1 in 64 to 1 in 2."""
    shares = [1 / 64 + (1 / 2 - 1 / 64) * bit / (bits - 1) for bit in range(bits)]
    return [sum((chance.random() < share) << bit for bit, share in enumerate(shares)) for _ in range(number)]


def scanner():
    """The plain scan in C++, built where a compiler is there; else none."""
    compiler = shutil.which("g++")
    if not compiler:
        return None
    folder = tempfile.mkdtemp(prefix="gph_scan_")
    atexit.register(shutil.rmtree, folder, ignore_errors=True)
    built = f"{folder}/scan"
    subprocess.run([compiler, "-O3", "-march=x86-64-v2", "-o", built, f"{HERE}/bench/scan.cpp"], check=True)
    return built


def scan(built, codes, queries, radius, bits=BITS, nearest=0):
    """The microseconds and the hits that the scan takes for each of the queries within a radius, of which it keeps so many of the
    nearest (0: all); or none where it wasn't built."""
    if not built:
        return None
    words = (bits + 63) // 64
    packed = b"".join((code << (64 * words - bits)).to_bytes(8 * words, "big") for code in [*codes, *queries])
    asked = map(str, (words, len(codes), len(queries), radius, nearest))
    told = subprocess.run([built, *asked], input=packed, stdout=subprocess.PIPE, check=True)
    return [(float(one), int(other)) for one, other in (line.split() for line in told.stdout.splitlines())]


def lines(number):
    """Reads so many lines in blocks; the bytes."""

    def read(output):
        seen, parts = 0, []
        while seen < number:
            block = output.read1(1 << 16)
            if not block:
                sys.exit(f"the output ended after {seen} lines")
            parts.append(block)
            seen += block.count(b"\n")
        return b"".join(parts)

    return read


class Session:
    """One session, from its start to its end."""

    def __init__(self, words=WORDS):
        self.program = subprocess.Popen([PROGRAM, *words], stdin=subprocess.PIPE, stdout=subprocess.PIPE)

    def ask(self, requests, read):
        """Sends lines while `read` takes in their replies from standard output; the seconds, and what it found."""

        def feed():
            self.program.stdin.write(requests)
            self.program.stdin.flush()

        # a pipe takes a few lines at once, and a thread would cost more than their answers
        feeder = threading.Thread(target=feed) if len(requests) > 4096 else None
        begun = time.perf_counter()
        feeder.start() if feeder else feed()
        found = read(self.program.stdout)
        took = time.perf_counter() - begun
        if feeder:
            feeder.join()
        return took, found

    def memory(self, kind="VmRSS"):
        """The memory that the session has now (VmRSS), or the most that it had (VmHWM), in KiB."""
        with open(f"/proc/{self.program.pid}/status", encoding="ascii") as it:
            return next(int(line.split()[1]) for line in it if line.startswith(f"{kind}:"))

    def end(self):
        """Ends the session; the most memory that it had, in KiB."""
        peak = self.memory("VmHWM")
        self.program.stdin.close()
        if self.program.wait() != 0:
            sys.exit(f"the program ended with status {self.program.returncode}")
        return peak
