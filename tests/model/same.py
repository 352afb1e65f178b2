"""Two answers that must be one."""
import sys


def same(wanted, got, *about):
    """Stops where the answers differ, and shows what they are about."""
    if wanted != got:
        sys.exit('expected %.2000r, got %.2000r: %s' % (wanted, got, ' '.join('%.2000r' % (x,) for x in about)))
