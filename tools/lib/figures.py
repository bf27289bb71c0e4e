"""Figures as the tables of docs/SPEED.md have them."""


def short(number):
    """A figure with at most three digits that count."""
    if number >= 1e6:
        return f"{number / 1e6:.1f} M"
    if number >= 1e4:
        return f"{number / 1e3:.1f} k"
    return f"{number:.0f}" if number >= 100 else f"{number:.1f}" if number >= 10 else f"{number:.2f}"


def with_quartiles(median, low, high):
    return f"{short(median)} ({short(low)}–{short(high)})"
