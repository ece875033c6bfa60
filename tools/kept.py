"""Keeps what was built, by the checksum of its sources and the toolchain, for other checkouts of the same sources.

It is in $XDG_CACHE_HOME/ticurses, or ~/.cache/ticurses, in folders of the user alone; others are not read. The last few
that were used are kept."""

import contextlib
import hashlib
import os
import shutil
import stat
import subprocess
import tempfile

from sources import checksum

# the number of each kind that stays
COUNT = 4


def store():
    """The folder of all that is kept; None where there is no place for it."""
    base = os.environ.get("XDG_CACHE_HOME", "")
    if not os.path.isabs(base):
        home = os.environ.get("HOME", "")
        base = f"{home}/.cache" if os.path.isabs(home) else None
    return f"{base}/ticurses" if base else None


def is_own(path, is_kind=stat.S_ISDIR):
    """Whether it is there, a folder or a file as it should be and no link, and nobody but this user can write to it."""
    try:
        found = os.lstat(path)
    except OSError:
        return False
    return is_kind(found.st_mode) and found.st_uid == os.geteuid() and not found.st_mode & 0o022


def kit():
    """The toolchain's name for itself; None where there is none."""
    try:
        ran = subprocess.run(["rt", "version"], stdin=subprocess.DEVNULL, capture_output=True, check=True)
    except (OSError, subprocess.CalledProcessError):
        return None
    return ran.stdout


def _shortened(held):
    return hashlib.sha256(held).hexdigest()[:32]


def _place(made, sources):
    """The folder in which it would be kept; None if there is none, or no toolchain."""
    at, beginning = store(), f"{made.name}-{_shortened(sources.encode('utf-8', 'surrogateescape'))}"
    if at is None or not is_own(at):
        return None
    name = kit()
    return f"{at}/{beginning}-{_shortened(name)}" if name else None


def _is_likely(made):
    """Whether anything of the kind is kept at all, which is known without the toolchain."""
    at = store()
    with contextlib.suppress(OSError):
        return at is not None and any(it.startswith(f"{made.name}-") for it in os.listdir(at))
    return False


def _sums(files):
    return "".join(f"{checksum(it)}  {os.path.basename(it)}\n" for it in files)


def found(made, sources):
    """The kept files that were made from these sources, whole; None where there are none."""
    at = _place(made, sources) if _is_likely(made) else None
    files = [f"{at}/{os.path.basename(it)}" for it in made.files]
    if at is None or not is_own(at) or not all(is_own(it, stat.S_ISREG) for it in [*files, f"{at}/sums"]):
        return None
    with open(f"{at}/sums", encoding="utf-8") as file:
        if file.read() != _sums(files):
            return None
    with contextlib.suppress(OSError):
        os.utime(at)
    return files


def fetch(made):
    """Copies what is kept to where it is built; whether it is there now."""
    sources = made.sources()
    files = found(made, sources)
    if files is None:
        return False
    made.forget()
    for kept, file in zip(files, made.files):
        os.makedirs(os.path.dirname(file), exist_ok=True)
        shutil.copy2(kept, f"{file}.new")
        os.replace(f"{file}.new", file)
    verdicts = f"{os.path.dirname(files[0])}/verdicts"
    if is_own(verdicts, stat.S_ISREG):
        shutil.copy2(verdicts, made.verdicts)
    made.note(sources)
    return True


def keep(made):
    """Keeps what is built and current. Where there is no place for it, nothing is kept."""
    at = store()
    if at is None:
        return
    with contextlib.suppress(OSError):
        os.makedirs(os.path.dirname(at), 0o700, exist_ok=True)
        with contextlib.suppress(FileExistsError):
            os.mkdir(at, 0o700)
        sources = made.sources()
        place = _place(made, sources)
        if place is None or found(made, sources):
            return
        room = tempfile.mkdtemp(prefix="new-", dir=at)
        try:
            for file in made.files:
                shutil.copy2(file, room)
                os.chmod(f"{room}/{os.path.basename(file)}", os.stat(file).st_mode & 0o755)
            with open(f"{room}/sums", "w", encoding="utf-8", opener=_private) as file:
                file.write(_sums([f"{room}/{os.path.basename(it)}" for it in made.files]))
            if os.path.isfile(made.verdicts):
                shutil.copyfile(made.verdicts, f"{room}/verdicts")
                os.chmod(f"{room}/verdicts", 0o644)
            # one that is there and is not whole goes
            shutil.rmtree(place, ignore_errors=True)
            os.rename(room, place)
        finally:
            shutil.rmtree(room, ignore_errors=True)
        _thin(made, at)


def _private(path, flags):
    return os.open(path, flags, 0o600)


def _thin(made, at):
    """Removes all of the kind but those that were used last."""
    names = [f"{at}/{it}" for it in os.listdir(at) if it.startswith(f"{made.name}-")]
    for old in sorted(names, key=os.path.getmtime, reverse=True)[COUNT:]:
        shutil.rmtree(old, ignore_errors=True)
