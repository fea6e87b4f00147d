"""Random data records of a stream, as the makers of inputs need them."""
from reference import write, zero


def rising_records(rng, size, most, gaps, lengths, zeroed):
    """At most so many rising records in an image of a size, touching ones among them where 0 is a gap; a share of them zeroed."""
    found, at = [], 0
    for _ in range(rng.randint(0, most)):
        at += rng.choice(gaps)
        length = rng.choice(lengths)
        if at + length > size:
            break
        found.append(zero(at, length) if rng.random() < zeroed else write(at, rng.randbytes(length)))
        at += length
    return found
