"""Folders and files of somebody else to write to: what is wrong with one, as a sentence."""
import errno
import os
import re
import shutil

FOLDER, FILE = "a folder", "a file"
REASONS = {
    errno.EACCES: "no permission to read or to write it",
    errno.EPERM: "no permission to read or to write it",
    errno.EROFS: "its file system is read-only",
    errno.ENOSPC: "no space is left on its file system",
    errno.EDQUOT: "its file system allows this user no more space",
    errno.ENOTDIR: "a file is in the place of a folder",
    errno.EEXIST: "a file is in the place of a folder",
    errno.EISDIR: "a folder is in the place of a file",
    errno.ENOENT: "it is not there, or a link leads nowhere",
    errno.ELOOP: "links lead from one to the other",
    errno.ENAMETOOLONG: "its name is too long",
}


class Refused(Exception):
    """Why nothing was written, or nothing more."""


def told(error):
    """An error of the operating system as a sentence, with the file that it is about."""
    if isinstance(error, shutil.Error):
        source, _, reason = error.args[0][0]
        number = re.match(r"\[Errno (\d+)\] ", str(reason))
        return f"{source} could not be copied: {REASONS.get(int(number[1]), reason) if number else reason}"
    place = error.filename2 or error.filename
    if not place:
        return REASONS.get(error.errno, str(error))
    return f"{place}: {REASONS.get(error.errno, error.strerror or str(error))}"


def look_at(place, wanted):
    """Refuses a place where something other than a folder, or than a file, is; it may be free."""
    if place.is_symlink() and not place.exists():
        raise Refused(f"{place} is a link that leads nowhere")
    if wanted == FOLDER and place.exists() and not place.is_dir():
        raise Refused(f"{place} is a file, where a folder has to be")
    if wanted == FILE and place.is_dir():
        raise Refused(f"{place} is a folder, where a file has to be")


def look_above(folder):
    """Refuses a folder that cannot be made or written to."""
    for place in [folder, *folder.parents]:
        look_at(place, FOLDER)
        if place.exists():
            if not os.access(place, os.W_OK | os.X_OK):
                raise Refused(f"{place}: {REASONS[errno.EACCES]}")
            return
