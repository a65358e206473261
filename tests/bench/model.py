"""A plain model of document 01's bench reader, made by another method than the library's: tables of powers found here, division by the
check polynomial, Berlekamp-Massey, Chien's search and Forney's rule. Every accepted word is then held to the paper's own rule: it is a
codeword, and it differs from the received word in at most r / 2 places. It shares nothing with the crates, and needs python3 alone."""

# ---- the field of 256 elements, reduced by 285

EXP = [1] * 510
for i in range(1, 510):
    x = EXP[i - 1] << 1
    EXP[i] = x ^ 285 if x > 255 else x
LOG = {EXP[i]: i for i in range(255)}


def times(a, b):
    return EXP[LOG[a] + LOG[b]] if a and b else 0


def inverse(a):
    return EXP[255 - LOG[a]]


# ---- polynomials, highest power first


def value(p, x):
    v = 0
    for c in p:
        v = times(v, x) ^ c
    return v


def product(p, q):
    out = [0] * (len(p) + len(q) - 1)
    for i, a in enumerate(p):
        for j, b in enumerate(q):
            out[i + j] ^= times(a, b)
    return out


def encode(message, r, b):
    """The message with its r check symbols: the remainder by the polynomial with the roots a^b, .., a^(b+r-1)."""
    check = [1]
    for j in range(r):
        check = product(check, [1, EXP[b + j]])
    rest = list(message) + [0] * r
    for i in range(len(message)):
        lead = rest[i]
        for j, c in enumerate(check):
            rest[i + j] ^= times(lead, c)
    return list(message) + rest[len(message):]


def syndromes(word, r, b):
    return [value(word, EXP[b + j]) for j in range(r)]


def locator(s):
    """Berlekamp and Massey's shortest register for the sequence s, lowest power first."""
    c, old, size, gap, last = [1], [1], 0, 1, 1
    for n in range(len(s)):
        d = s[n]
        for i in range(1, size + 1):
            d ^= times(c[i], s[n - i]) if i < len(c) else 0
        if d == 0:
            gap += 1
            continue
        kept = list(c)
        factor = times(d, inverse(last))
        c += [0] * (len(old) + gap - len(c))
        for i, x in enumerate(old):
            c[i + gap] ^= times(factor, x)
        if 2 * size <= n:
            size, old, last, gap = n + 1 - size, kept, d, 1
        else:
            gap += 1
    return c[: size + 1] + [0] * (size + 1 - len(c)), size


def corrected(word, r, b):
    """The codeword that differs from the received word in e places with 2e <= r; None where there is none."""
    n, s = len(word), syndromes(word, r, b)
    if not any(s):
        return list(word)
    c, size = locator(s)
    if 2 * size > r:
        return None
    # place i has the locator a^(n-1-i); only places of the word are tried
    places = [i for i in range(n) if value(c[::-1], inverse(EXP[n - 1 - i])) == 0]
    if len(places) != size:
        return None
    # Forney: error = X^(1-b) · Ω(1/X) / Λ'(1/X), Ω = S·Λ mod x^r
    omega = [0] * r
    for i, a in enumerate(c):
        for j, x in enumerate(s):
            if i + j < r:
                omega[i + j] ^= times(a, x)
    slope = [c[i] if i % 2 else 0 for i in range(len(c))][1:]
    out = list(word)
    for i in places:
        z = inverse(EXP[n - 1 - i])
        below = value(slope[::-1], z)
        if below == 0:
            return None
        e = times(value(omega[::-1], z), inverse(below))
        out[i] ^= times(e, EXP[n - 1 - i]) if b == 0 else e
    wrong = sum(x != y for x, y in zip(word, out))
    return out if not any(syndromes(out, r, b)) and 2 * wrong <= r else None


# ---- frames


def allowed(J, n, r, b):
    return 1 <= J <= 16 and 2 <= r <= 16 and r < n <= 255 and b <= 1 and J * (n - r) >= 4


def sent(J, n, r, b, payload, sequence):
    """The setting and the slots of a frame, as the bench reader takes them."""
    k = n - r
    tail = [len(payload) % 256, len(payload) // 256, sequence % 256, sequence // 256]
    area = [0] * (J * k - 4 - len(payload)) + list(payload) + tail
    return framed(J, n, r, b, area)


def framed(J, n, r, b, area):
    k = n - r
    words = [encode(area[w * k : w * k + k], r, b) for w in range(J)]
    return bytes([J, n, r, b] + [words[w][i] for i in range(n) for w in range(J)])


def spoken(data):
    """What the bench reader prints for an input."""
    if len(data) < 4:
        return b"refused 2\n"
    J, n, r, b = data[:4]
    if not allowed(J, n, r, b):
        return b"refused 1\n"
    slots = data[4:]
    if len(slots) != n * J:
        return b"refused 2\n"
    area, figures, changed = [], [], []
    for w in range(J):
        word = [slots[i * J + w] for i in range(n)]
        right = corrected(word, r, b)
        if right is None:
            return b"refused 4\n"
        area += right[: n - r]
        wrong = [i for i in range(n) if word[i] != right[i]]
        figures.append((len(wrong), sum(bin(word[i] ^ right[i]).count("1") for i in wrong)))
        changed += [i * J + w for i in wrong]
    end = len(area) - 4
    back = area[end] + 256 * area[end + 1]
    if back > end or any(area[: end - back]):
        return b"refused 5\n"
    lines = ["frame %d payload %d" % (area[end + 2] + 256 * area[end + 3], back)]
    lines += ["word %d errors %d marked 0 bits %d" % (w, e, k) for w, (e, k) in enumerate(figures)]
    lines.append(bytes(area[end - back : end]).hex().upper())
    lines.append(" ".join(str(slot) for slot in sorted(changed)))
    return ("\n".join(lines) + "\n").encode()
