"""The time of a load of 32,768 rows in rising and in falling addresses."""
from timing import unit_seconds

ROWS, LOADS = 32_768, 9


def print_times():
    """Prints both, in microseconds, and the second over the first, which it returns."""
    rising, falling = (1e6 * unit_seconds(word, ROWS, LOADS) for word in ("rising", "falling"))
    print(f"a load of {ROWS} rows: rising {rising:.0f} us, falling {falling:.0f} us, {falling / rising:.2f}", flush=True)
    return falling / rising
