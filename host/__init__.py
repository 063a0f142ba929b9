"""The daemon of one host of a pair: docs/OPERATE.md says what it does."""
import sys

if sys.version_info < (3, 11):
    sys.exit("this needs Python 3.11 or later, and is run by %d.%d" % sys.version_info[:2])
