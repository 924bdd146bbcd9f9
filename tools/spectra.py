"""The power spectrum of a list of samples, and the figures of a converter, with Python's standard library alone."""
import cmath
import functools
import math

# The windows, as sums of cosines, and how many bins on either side of its own a sine reaches.
WINDOWS = {
    "blackman-harris": ((0.35875, -0.48829, 0.14128, -0.01168), 5),
    "hann": ((0.5, -0.5), 3),
    "none": ((1.0,), 0),
}
MOST_DIRECT = 16


class NoFigures(Exception):
    """Why there are no figures."""


# --- the transform


@functools.lru_cache(maxsize=64)
def roots(n):
    """The first half of the n-th roots of 1, clockwise."""
    return tuple(cmath.exp(-2j * math.pi * k / n) for k in range(n // 2))


def direct(xs):
    n = len(xs)
    turn = [cmath.exp(-2j * math.pi * k / n) for k in range(n)]
    return [sum(x * turn[k * at % n] for at, x in enumerate(xs)) for k in range(n)]


def bluestein(xs):
    """The transform of any length, as a convolution of a length that is a power of two."""
    n = len(xs)
    chirp = [cmath.exp(-1j * math.pi * (k * k % (2 * n)) / n) for k in range(n)]
    size = 1 << (2 * n - 1).bit_length()
    left = [x * c for x, c in zip(xs, chirp)] + [0j] * (size - n)
    back = [c.conjugate() for c in chirp]
    right = back + [0j] * (size - 2 * n + 1) + back[:0:-1]
    product = [(a * b).conjugate() for a, b in zip(transform(left), transform(right))]
    return [v.conjugate() / size * c for v, c in zip(transform(product), chirp)]


def transform(xs):
    """The discrete Fourier transform of a list: sum of x[n] exp(-2 pi i k n / N) for each k."""
    n = len(xs)
    if n % 2 or n <= 2:
        return direct(xs) if n <= MOST_DIRECT else bluestein(xs)
    even, odd = transform(xs[::2]), transform(xs[1::2])
    turned = [x * root for x, root in zip(odd, roots(n))]
    return [a + b for a, b in zip(even, turned)] + [a - b for a, b in zip(even, turned)]


def powers_of(samples, window):
    """The power of each bin from 0 to N/2, without the mean; all bins together have the mean square of the samples."""
    n = len(samples)
    terms, _ = WINDOWS[window]
    mean = math.fsum(samples) / n
    weights = [math.fsum(term * math.cos(2 * math.pi * k * at / n) for k, term in enumerate(terms)) for at in range(n)]
    scale = n * math.fsum(it * it for it in weights)
    bins = transform([(x - mean) * weight for x, weight in zip(samples, weights)])[: n // 2 + 1]
    return [abs(it) ** 2 * (1 if k == 0 or 2 * k == n else 2) / scale for k, it in enumerate(bins)]


# --- the figures


def folded(k, n):
    """The bin at which a frequency of k bins is found after sampling."""
    k %= n
    return n - k if 2 * k > n else k


class Figures:
    """The powers of a signal, of its harmonics and of the noise in a band of bins, from `low` to `high`, both counted.

    The bins that the mean, the signal and (for the noise) the harmonics reach are left out. In the place of each of those that lie in
    the band stands the mean power of the counted bins next to them, as many on each side as a sine reaches.
    """

    def __init__(self, powers, n, window, low, high, harmonics, at=None):
        self.powers, self.n, self.low, self.high, self.reach = powers, n, low, high, WINDOWS[window][1]
        mean = self.around(0)
        free = [k for k in range(low, high + 1) if k not in mean]
        if not free:
            raise NoFigures("the band contains only the bins of the mean: use more samples or a wider band")
        self.at = max(free, key=lambda k: powers[k]) if at is None else at
        if self.at in mean:
            raise NoFigures("the signal lies in the bins of the mean: use more samples")
        own = self.around(self.at) - mean
        others = set()
        for k in range(2, harmonics + 1):
            others |= {it for it in self.around(folded(k * self.at, n)) if low <= it <= high}
        others -= own | mean
        self.signal = math.fsum(powers[k] for k in own)
        self.all_but_signal = self.filled(mean | own)
        self.noise = self.filled(mean | own | others)
        self.distortion = max(self.all_but_signal - self.noise, 0.0) if others else 0.0

    def around(self, k):
        return set(range(max(k - self.reach, 0), min(k + self.reach, self.n // 2) + 1))

    def filled(self, left_out):
        """The power of the band's bins, those that are left out replaced by their neighbours' mean."""
        counted = [k for k in range(self.low, self.high + 1) if k not in left_out]
        if not counted:
            raise NoFigures("no bin of the band is left for the noise: use more samples or a wider band")
        parts, run = [self.powers[k] for k in counted], []
        for k in range(self.low, self.high + 2):
            if k <= self.high and k in left_out:
                run.append(k)
            elif run:
                parts.append(len(run) * self.mean_beside(run, left_out))
                run = []
        return math.fsum(parts)

    def mean_beside(self, run, left_out):
        near = []
        for first, step in ((run[0] - 1, -1), (run[-1] + 1, 1)):
            k, found = first, 0
            while self.low <= k <= self.high and found < max(self.reach, 1):
                if k not in left_out:
                    near.append(self.powers[k])
                    found += 1
                k += step
        return math.fsum(near) / len(near)


def decibels(power, other=1.0):
    return 10 * math.log10(power / other) if power > 0 else -math.inf
