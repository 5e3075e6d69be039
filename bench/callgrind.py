"""Instructions of a run, as `valgrind --tool=callgrind` counts them: the same each time, whatever else the machine
does."""
import subprocess
import tempfile


def instructions(command, script):
    """Of one run of this command with these bytes as its standard input."""
    with tempfile.TemporaryDirectory() as folder:
        counted = ["valgrind", "--tool=callgrind", f"--callgrind-out-file={folder}/out", *command]
        done = subprocess.run(counted, input=script, stdout=subprocess.DEVNULL, stderr=subprocess.PIPE, check=True)
    return int(done.stderr.decode().split("refs:")[1].split()[0].replace(",", ""))
