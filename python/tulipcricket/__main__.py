"""python -m tulipcricket; and as a file's name, by which the front calls it, so that nothing of the folder it is called in is imported."""

import os
import sys

if not __package__:
    HERE = os.path.dirname(os.path.abspath(__file__))
    sys.path[:] = [os.path.dirname(HERE), *(place for place in sys.path if os.path.abspath(place) != HERE)]

from tulipcricket.command import main  # noqa: E402

if __name__ == "__main__":
    sys.exit(main())
