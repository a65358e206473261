"""cases.py: writes the .in and .out files beside it from the model. Run it in this folder after a change of the model."""
import random

import model

draw = random.Random(1)


def payload(n):
    return [draw.randint(0, 255) for _ in range(n)]


def struck(data, e):
    """The same input with e wrong places in every word."""
    J, n = data[0], data[1]
    return struck_in(data, (i * J + w for w in range(J) for i in draw.sample(range(n), e)))


def struck_in(data, slots):
    """The same input with these slots wrong."""
    out = bytearray(data)
    for slot in slots:
        out[4 + slot] ^= draw.randint(1, 255)
    return bytes(out)


example = bytes([2, 5, 2, 0, 0, 0, 0, 0, 1, 1, 217, 13, 153, 14])
frame = model.sent(4, 32, 6, 1, payload(50), 40000)
cases = {
    "example": example,
    "refused_1": bytes([2, 5, 2, 2]) + example[4:],
    "refused_2_short": example[:-1],
    "refused_2_long": example + b"\0",
    "refused_2_three_bytes": example[:3],
    "refused_2_empty": b"",
    "refused_4": struck(frame, 4),
    "refused_5_back": model.framed(2, 9, 2, 0, [0] * 10 + [11, 0, 1, 0]),
    "refused_5_zeros": model.framed(2, 9, 2, 0, [0, 0, 7] + [0] * 7 + [1, 0, 1, 0]),
    "empty_payload": model.sent(3, 20, 4, 0, [], 0),
    "full_payload": model.sent(3, 20, 4, 0, payload(44), 9),
    "largest": struck(model.sent(16, 255, 16, 0, payload(16 * 239 - 4), 65535), 8),
    "most_payload": model.sent(16, 255, 2, 1, payload(16 * 253 - 4), 10000),
    "odd_r": struck(model.sent(5, 60, 7, 0, payload(100), 999), 3),
    "odd_r_beyond": struck(model.sent(5, 60, 7, 0, payload(100), 999), 4),
    "b_1": struck(model.sent(1, 40, 8, 1, payload(20), 1000), 4),
    "at_the_limit": struck(frame, 3),
    "first_and_last_slot": struck_in(frame, [0, 4 * 32 - 1]),
    "ten_slots_in_a_row": struck_in(frame, range(95, 105)),
    # no text is longer: a full payload, and every changed slot has four digits
    "longest_text": struck_in(model.sent(16, 255, 16, 1, payload(16 * 239 - 4), 65535), range(247 * 16, 255 * 16)),
}
for name, data in cases.items():
    with open(name + ".in", "wb") as f:
        f.write(data)
    with open(name + ".out", "wb") as f:
        f.write(model.spoken(data))
