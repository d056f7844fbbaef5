"""Numbers drawn from a seed by splitmix64, the same on every machine, and reals of several sorts."""

from ieee import INFINITY, NAN, ONE, SIGN, compose, to_bits

MASK = (1 << 64) - 1


class Random:
    def __init__(self, seed):
        self.state = seed & MASK

    def bits(self):
        """64 random bits."""
        self.state = (self.state + 0x9E3779B97F4A7C15) & MASK
        z = self.state
        z = ((z ^ z >> 30) * 0xBF58476D1CE4E5B9) & MASK
        z = ((z ^ z >> 27) * 0x94D049BB133111EB) & MASK
        return z ^ z >> 31

    def below(self, limit):
        return self.bits() % limit

    def between(self, low, high):
        """A whole number from low to high, both included."""
        return low + self.below(high - low + 1)

    def choice(self, options):
        return options[self.below(len(options))]

    def chance(self, percent):
        return self.below(100) < percent


NANS = (NAN, NAN | SIGN, NAN | 1, NAN | SIGN | 0xABCDE, INFINITY | 1, INFINITY | SIGN | 0x7FFFFFFFFFFFF, 2**63 - 1, 2**64 - 1)
INFINITIES = (INFINITY, INFINITY | SIGN)
ZEROS = (0, SIGN)


def with_fields(random, low, high):
    """Random sign and digits, the exponent field from low to high."""
    return compose(random.below(2), random.between(low, high), random.below(1 << 52))


def whole(random):
    return to_bits(float(random.between(-4, 4)))


def ordinary(random):
    return with_fields(random, 1015, 1031)


def any_finite(random):
    return with_fields(random, 0, 2046)


def huge(random):
    return with_fields(random, 2040, 2046)


def about_root_of_largest(random):
    """A product of two of these is near the largest value, under or over it."""
    return with_fields(random, 1533, 1535)


def tiny(random):
    """A subnormal value or a small normal one."""
    if random.chance(50):
        return compose(random.below(2), 0, random.below(1 << 52) >> random.below(50))
    return with_fields(random, 1, 60)


def about_root_of_least(random):
    """A product of two of these is subnormal or rounds to zero."""
    return with_fields(random, 480, 515)


def ones(random):
    """One, or a neighbour in the last bits: products and sums that only a correct rounding gets right."""
    return (ONE + random.between(-3, 3)) | random.below(2) << 63


def special(random):
    return random.choice((*NANS, *INFINITIES, *INFINITIES, *INFINITIES, *ZEROS))


FINITE_SORTS = (whole, ordinary, ordinary, ordinary, any_finite, huge, about_root_of_largest, tiny, about_root_of_least, ones)


def finite_list(random, length, sort):
    """Finite values of one sort, with a zero of either sign now and then."""
    return [random.choice(ZEROS) if random.chance(8) else sort(random) for _ in range(length)]


def signal_list(random, length, sort, percent_special=0):
    """A signal: finite values of one sort, and here and there a NaN, an infinity or a zero."""
    values = finite_list(random, length, sort)
    return [special(random) if random.chance(percent_special) else value for value in values]
