"""The program `conics` behind pipes: input in pieces of every size, answers before the input ends, memory that does not grow, and an
output pipe that nobody reads. Says what failed, and ends non-zero if anything did."""
import fcntl
import random
import signal
import struct
import subprocess
import sys
import tempfile
import termios
import time

PROGRAM = sys.argv[1]
MEMORY_LIMIT = 8 * 1024  # KiB, of which the two buffers are 128
ROWS = b"1 1 1 1 0 -1\n1 0 1 0 0 -3\n\n1 0 1 0 0 3\r\n" + b"7" * 100 + b"\n1 0 1 0 0 0\n41 0 0 0 0 0\n1 0 1"
ANSWERS = b"P -4 5 3\nN prime 3\nR 10\nR 10\nR 10\nR 2\nR 1\nR 10\n"
failures = []


def expect(name, holds):
    if not holds:
        failures.append(name)
        print("rows: FAILED:", name)


def started(output):
    return subprocess.Popen([PROGRAM], stdin=subprocess.PIPE, stdout=output, bufsize=0)


def expect_end(child):
    status = child.wait(20)
    expect(f"exit status {status}, not 0", status == 0)


def unread(pipe):
    return struct.unpack("i", fcntl.ioctl(pipe, termios.FIONREAD, b"\0\0\0\0"))[0]


def in_pieces(sizes):
    """What the program answers to ROWS in pieces, each sent when the one before was read."""
    with tempfile.TemporaryFile() as output:
        child = started(output)
        at = 0
        while at < len(ROWS):
            size = next(sizes)
            child.stdin.write(ROWS[at:at + size])
            at += size
            while unread(child.stdin) > 0:
                time.sleep(0.0002)
        child.stdin.close()
        expect_end(child)
        output.seek(0)
        return output.read()


def always(size):
    while True:
        yield size


def any_size(seed):
    source = random.Random(seed)
    while True:
        yield source.randint(1, 60)


def asked_one_by_one():
    """Each row is answered before the next is sent."""
    child = started(subprocess.PIPE)
    answers = b""
    for row in ROWS.split(b"\n")[:-1]:
        child.stdin.write(row + b"\n")
        answers += child.stdout.readline()
    child.stdin.write(ROWS.split(b"\n")[-1])
    child.stdin.close()
    answers += child.stdout.read()
    expect_end(child)
    return answers


def many_rows(count):
    """The peak of memory in KiB over so many rows, and whether all were answered before the input ended."""
    with tempfile.TemporaryFile() as output:
        child = started(output)
        for _ in range(count // 1000):
            child.stdin.write(b"1 0 1 0 0 3\n" * 1000)
        wanted = count * len(b"N sign\n")
        until = time.monotonic() + 60
        while output.seek(0, 2) < wanted and time.monotonic() < until:
            time.sleep(0.01)
        with open(f"/proc/{child.pid}/status") as status:
            peak = next(int(line.split()[1]) for line in status if line.startswith("VmHWM"))
        answered = output.seek(0, 2) == wanted
        child.stdin.close()
        expect_end(child)
        output.seek(0)
        return peak, answered and output.read() == b"N sign\n" * count


def ends_without_a_reader():
    """Nobody reads the output, and a signal does not end the program: it ends by itself."""
    rows = subprocess.Popen(["yes", "1 0 1 0 0 3"], stdout=subprocess.PIPE)
    child = subprocess.Popen(
        [PROGRAM], stdin=rows.stdout, stdout=subprocess.PIPE, restore_signals=False,
        preexec_fn=lambda: signal.signal(signal.SIGPIPE, signal.SIG_IGN))
    rows.stdout.close()
    child.stdout.close()
    try:
        return child.wait(20) == 0
    except subprocess.TimeoutExpired:
        child.kill()
        return False
    finally:
        rows.kill()
        rows.wait()


def hung(*_):
    print("rows: FAILED: pipes.py: no answer for four minutes")
    sys.exit(1)


signal.signal(signal.SIGALRM, hung)
signal.alarm(240)
expect("one byte at a time", in_pieces(always(1)) == ANSWERS)
for seed in range(5):
    expect(f"pieces of any size, {seed}", in_pieces(any_size(seed)) == ANSWERS)
expect("each row answered before the next is sent", asked_one_by_one() == ANSWERS)
peak, answered = many_rows(1_000_000)
expect("1,000,000 rows", answered)
expect(f"memory: {peak} KiB", peak <= MEMORY_LIMIT)
expect("an output pipe without a reader", ends_without_a_reader())
sys.exit(1 if failures else 0)
