"""What scripts share is in the folder lib above: it is found from here too, so that each script of scenes runs alone."""

import pathlib

__path__ = [str(pathlib.Path(__file__).resolve().parents[2] / "lib")]
