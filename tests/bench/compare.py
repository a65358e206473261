"""compare.py COUNT SEED PROGRAM..: the model's text against the program's for COUNT random inputs. It catches an answer that document 01
does not give, where the definitions and the code agree on a wrong one. It prints how often each answer was met, and stops at the first
difference. It needs python3 alone."""
import collections
import random
import subprocess
import sys
import tempfile

import model

count, seed, program = int(sys.argv[1]), int(sys.argv[2]), sys.argv[3:]
draw = random.Random(seed)


def setting():
    """An allowed setting, near a limit as often as not."""
    while True:
        J = draw.choice([1, 2, 3, 16, draw.randint(1, 16)])
        r = draw.choice([2, 3, 4, 15, 16, draw.randint(2, 16)])
        n = draw.choice([r + 1, r + 2, r + 4, 255, draw.randint(r + 1, 255), draw.randint(r + 1, 40)])
        b = draw.randint(0, 1)
        if model.allowed(J, n, r, b) and (J * n < 1000 or draw.random() < 0.05):
            return J, n, r, b


def area(size):
    """A message area: mostly a good one, else one whose trailer is wrong."""
    kind = draw.random()
    back = draw.choice([0, size - 4, draw.randint(0, size - 4)])
    if kind < 0.1:
        back = draw.choice([size - 3, 65535, draw.randint(size - 3, 65535)])
    sequence = draw.choice([0, 9, 10, 99, 100, 999, 1000, 9999, 10000, 65535, draw.randint(0, 65535)])
    room = size - 4
    payload = [draw.randint(0, 255) for _ in range(min(back, room))]
    zeros = [0] * (room - len(payload))
    if kind > 0.9 and zeros:
        zeros[draw.randrange(len(zeros))] = draw.randint(1, 255)
    return zeros + payload + [back % 256, back // 256, sequence % 256, sequence // 256]


def damaged(data, J, n, r):
    """Each word with as many wrong places as it bears, fewer, or one too many; or damage anywhere."""
    data = bytearray(data)
    most = draw.choice([0, 1, r // 2, r // 2, r // 2 + 1, r])
    for w in range(J):
        wrong = min(n, most if draw.random() < 0.8 else draw.randint(0, r))
        for i in draw.sample(range(n), wrong):
            data[4 + i * J + w] ^= draw.randint(1, 255)
    return bytes(data)


def case():
    kind = draw.random()
    if kind < 0.05:
        return bytes(draw.randint(0, 255) for _ in range(draw.randint(0, 40)))
    if kind < 0.12:
        head = [draw.choice([0, 1, 2, 16, 17]), draw.choice([0, 2, 3, 5, 6, 17, 255]), draw.choice([0, 1, 2, 16, 17]), draw.choice([0, 1, 2, 255])]
        return bytes(head + [draw.randint(0, 255) for _ in range(draw.choice([0, 1, head[0] * head[1], 30]))])
    J, n, r, b = setting()
    data = model.framed(J, n, r, b, area(J * (n - r)))
    if kind < 0.20:
        return data[: draw.randint(0, len(data))]
    if kind < 0.26:
        return data + bytes(draw.choice([1, 2, 300, 9000]))
    if kind < 0.32:
        return data[:4] + bytes(draw.randint(0, 255) for _ in range(n * J))
    return damaged(data, J, n, r)


met = collections.Counter()
for i in range(count):
    data = case()
    want = model.spoken(data)
    # a file and not a pipe: the program may have its answer before it has read all
    with tempfile.TemporaryFile() as held:
        held.write(data)
        held.seek(0)
        got = subprocess.run(program, stdin=held, capture_output=True)
    if got.stdout != want or got.stderr or got.returncode:
        print("case %d of seed %d: input %s" % (i, seed, data.hex()))
        print("the model says  %r" % want)
        print("the program says %r, status %d" % (got.stdout, got.returncode))
        sys.exit(1)
    met[want.split(b"\n")[0] if want.startswith(b"refused") else b"frame"] += 1
print("%d inputs agree: %s" % (count, ", ".join("%s %d" % (k.decode(), v) for k, v in sorted(met.items()))))
