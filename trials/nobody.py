"""Another user for root, since what binds others, as the permissions of files do, does not bind root: the one of number 65534."""
import os
import subprocess
from pathlib import Path

NOBODY = 65534


def become_nobody():
    os.setgroups([])
    os.setgid(NOBODY)
    os.setuid(NOBODY)


def can_become_nobody():
    """Whether root can: in some containers it can't."""
    try:
        return subprocess.run(["true"], preexec_fn=become_nobody, stdin=subprocess.DEVNULL, check=False).returncode == 0
    except (subprocess.SubprocessError, OSError):
        return False


def binds_permissions(*folders):
    """Whether permissions bind the user of a process in these folders: who is not root, or root as nobody, where nobody gets there."""
    above = [it for folder in folders for it in (Path(folder), *Path(folder).parents)]
    return os.geteuid() != 0 or can_become_nobody() and all(it.stat().st_mode & 1 for it in above)


def give_away(folder):
    """Gives a folder and all that is in it to nobody."""
    for at, folders, files in os.walk(folder):
        for name in [*folders, *files, "."]:
            os.chown(f"{at}/{name}", NOBODY, NOBODY, follow_symlinks=False)
