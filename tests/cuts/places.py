"""Where this test finds what it shares with tests/model and tests/beside_rust."""
import pathlib
import sys

TESTS = pathlib.Path(__file__).resolve().parent.parent
sys.path[:0] = [str(TESTS / "beside_rust"), str(TESTS / "model")]
