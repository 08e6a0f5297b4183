"""What the tools of pictures share: refusals, and files that are written whole or not at all."""

import os
import tempfile


class Refusal(Exception):
    """One line on why nothing is written."""


def write_all(contents):
    """Writes files, given as names with their bytes, each whole; or leaves all as they were."""
    made = []
    try:
        for name, data in contents:
            if os.path.exists(name) and not os.path.isfile(name):
                raise Refusal(f"{name}: no file that can be replaced")
            try:
                made.append((name, write_beside(name, data)))
            except OSError as error:
                raise Refusal(f"{name}: {error.strerror}") from None
        while made:
            os.replace(made[0][1], made[0][0])
            made.pop(0)
    finally:
        for _, new in made:
            os.unlink(new)


def write_beside(name, data):
    """Writes bytes to a new file in the folder of a name, and gives where it is."""
    with tempfile.NamedTemporaryFile(dir=os.path.dirname(name) or ".", delete=False) as new:
        try:
            new.write(data)
        except BaseException:
            os.unlink(new.name)
            raise
    mask = os.umask(0)
    os.umask(mask)
    os.chmod(new.name, 0o666 & ~mask)
    return new.name


def told(tool, act):
    """Runs a tool; what it refuses is one line."""
    try:
        act()
    except Refusal as refusal:
        raise SystemExit(f"{tool}: {refusal}") from None
    except OSError as error:
        raise SystemExit(f"{tool}: {error.filename}: {error.strerror}" if error.filename else f"{tool}: {error}") from None
