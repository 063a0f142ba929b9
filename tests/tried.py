"""The program that the tests of gate/ try: REMUS names it. Where that isn't set it is the one that came with the sources, and that is said,
since nothing is built then, whatever the sources are. And what a script of gate/ does with its tests."""
import os
import sys
import tempfile
import traceback
from collections.abc import Callable, Iterable
from pathlib import Path

PREBUILT = Path(__file__).resolve().parent.parent / "prebuilt/remus"
Test = Callable[[Path], str | None]


def program() -> str:
    """REMUS, or else prebuilt/remus."""
    named = os.environ.get("REMUS")
    if not named:
        print(f"{Path(sys.argv[0]).name}: REMUS isn't set, so prebuilt/remus is tried", file=sys.stderr)
    return named or str(PREBUILT)


def differs(came: object, wanted: object) -> str | None:
    return None if came == wanted else f"{came!r}, not {wanted!r}"


def played(tests: Iterable[Test]) -> int:
    """Plays tests, each in a folder of its own, says what is wrong, and answers the script's status. A test answers what is wrong, or None.
    Those that are named on the command line are played alone, where any are."""
    passed = failed = 0
    for test in tests:
        if sys.argv[1:] and test.__name__ not in sys.argv[1:]:
            continue
        with tempfile.TemporaryDirectory() as room:
            try:
                wrong = test(Path(room))
            except Exception as error:
                wrong = f"{type(error).__name__}: {error} ({traceback.extract_tb(error.__traceback__)[-1].lineno})"
        passed, failed = passed + (wrong is None), failed + (wrong is not None)
        if wrong is not None:
            print(f"{test.__name__}: {wrong}", flush=True)
    print(f"{passed} passed, {failed} failed")
    return int(failed > 0)
