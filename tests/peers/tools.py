"""Programs of others, by the Debian packages that have them."""

import shutil
import subprocess

from harness import TIMEOUT, Mismatch, Suite

PACKAGES = {
    "sox": "sox",
    "soxi": "sox",
    "ffmpeg": "ffmpeg",
    "ffprobe": "ffmpeg",
    "sndfile-info": "sndfile-programs",
    "sndfile-convert": "sndfile-programs",
    "sndfile-metadata-get": "sndfile-programs",
    "sndfile-metadata-set": "sndfile-programs",
    "mediainfo": "mediainfo",
}


def case(suite: Suite, tool: str, name: str, body) -> None:
    """Runs a case that wants this program, or skips it where the program isn't installed."""
    if shutil.which(tool):
        suite.case(f"{tool}: {name}", body)
    else:
        suite.skip(f"{tool}: {name}", f"{tool} isn't installed (Debian package {PACKAGES[tool]})")


def output_of(*words) -> bytes:
    """What the program prints on standard output."""
    done = subprocess.run(words, stdin=subprocess.DEVNULL, capture_output=True, timeout=TIMEOUT)
    if done.returncode != 0:
        raise Mismatch(f"{words} ends with {done.returncode}: {done.stderr.decode(errors='replace')}")
    return done.stdout


def text_of(*words) -> str:
    return output_of(*words).decode()
