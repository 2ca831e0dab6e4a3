"""The text of a run's lines, and a run of the program on a folder whose replies are compared."""
import subprocess

SECONDS = 600                   # how long a run may take, also where others take the processors


class Failed(Exception):
    """A run is answered otherwise, or leaves what it may not leave."""


def text_of(lines):
    return "".join(line + "\n" for line in lines).encode()


def compare_replies(program, folder, lines, replies):
    ended = subprocess.run([program, folder], input=text_of(lines), capture_output=True, timeout=SECONDS)
    if ended.returncode != 0 or ended.stdout.decode("ascii", "replace") != "".join(replies):
        raise Failed(f"is answered otherwise, with status {ended.returncode}; its lines are\n{text_of(lines).decode()}")
