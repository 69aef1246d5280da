"""Figures of several runs: the median, and how far the others are from it."""
import statistics

median = statistics.median


def ratios(ones, others):
    """The ratio of two figures in each run."""
    return [one / other for one, other in zip(ones, others)]


def in_words(values, form="{:,.0f}"):
    """The median, and the largest distance of another run in per cent of it."""
    middle = median(values)
    furthest = max(abs(value - middle) for value in values)
    return f"{form.format(middle)} ±{100 * furthest / abs(middle) if middle else 0:.0f} %"
