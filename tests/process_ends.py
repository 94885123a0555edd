"""What the program does at the ends of its process, which no source or sink in memory shows: a
device that is full, a standard input that can't be read, too little memory, a closed pipe, a
program name that is no text."""
import os
import resource
import subprocess
import tempfile

INSTANCE = b"p edge 2 1\ne 1 2 5\n"
ACCEPTED = INSTANCE + b"s OPTIMAL perfect 5\nx 1 1\ny 1 5\ny 2 5\n"
TRIAL = ["trial", "perfect", "1", "0", "0"]
TRIED = b"g 0 0\ns OPTIMAL perfect 0\ns ACCEPTED\n"
COMMANDS = (
    (["solve", "perfect"], INSTANCE),
    (["check", "perfect"], ACCEPTED),
    (["check", "perfect"], b"p edge 0\n"),
    (TRIAL, b""),
    (["no command"], b""),
)


def full_device(program, tests):
    """A write that fails is answered, whatever was to be written."""
    for words, given in COMMANDS:
        with open("/dev/full", "wb", buffering=0) as full:
            done = subprocess.run(
                [program] + words, input=given, stdout=full, stderr=subprocess.PIPE
            )
        tests.compare(
            "a full device: " + " ".join(words), given, (7, b""), (done.returncode, done.stderr)
        )


def closed_output(program, tests):
    """So is one to a pipe whose reader has gone: the process isn't killed."""
    for words, given in COMMANDS:
        read, write = os.pipe()
        os.close(read)
        done = subprocess.run([program] + words, input=given, stdout=write, stderr=subprocess.PIPE)
        os.close(write)
        tests.compare(
            "a closed pipe: " + " ".join(words), given, (7, b""), (done.returncode, done.stderr)
        )


def unreadable_input(program, tests):
    """A read that fails is answered, with nothing written; a trial, and words that are no
    command, don't read."""
    for words, status, output in (
        (["solve", "perfect"], 6, b""),
        (["check", "path"], 6, b""),
        (TRIAL, 0, TRIED),
        (["check"], 2, b"s USAGE\n"),
    ):
        folder = os.open(tempfile.gettempdir(), os.O_RDONLY)
        done = subprocess.run([program] + words, stdin=folder, capture_output=True)
        os.close(folder)
        tests.compare(
            "a directory as standard input: " + " ".join(words),
            b"",
            (status, output, b""),
            (done.returncode, done.stdout, done.stderr),
        )


def untouched_input(program, tests):
    """A file as standard input is read to its end, but by a trial, and for words that are no
    command, not at all."""
    for words, left in (
        (["check", "perfect"], 0),
        (TRIAL, len(ACCEPTED)),
        (["check"], len(ACCEPTED)),
    ):
        with tempfile.TemporaryFile(buffering=0) as file:
            file.write(ACCEPTED)
            file.seek(0)
            subprocess.run([program] + words, stdin=file, capture_output=True)
            tests.compare(
                "what is left of standard input: " + " ".join(words),
                ACCEPTED,
                left,
                len(file.read()),
            )


def little_memory(program, tests):
    """Want of memory is answered, with nothing written."""
    limit = 12 << 20
    given = b"\n" * 16_000_000
    words = ["solve", "perfect"]
    done = subprocess.run(
        [program] + words,
        input=given,
        capture_output=True,
        preexec_fn=lambda: resource.setrlimit(resource.RLIMIT_AS, (limit, limit)),
    )
    tests.compare(
        "12 MiB of memory for 16 MB of input",
        given,
        (8, b"", b""),
        (done.returncode, done.stdout, done.stderr),
    )


def little_memory_for_words(program, tests):
    """Want of memory for the words of the command line is answered too, whatever they are; where
    memory is enough for them they are no command."""

    def limited():
        resource.setrlimit(resource.RLIMIT_DATA, (1 << 20, 1 << 20))

    for words, status, output in (
        ([], 2, b"s USAGE\n"),
        (["check", "cover"], 2, b"s USAGE\n"),
        (["w" * 100_000] * 16, 8, b""),
        (["check", "perfect"] + ["w" * 100_000] * 16, 8, b""),
    ):
        done = subprocess.run(
            [program] + words, input=ACCEPTED, capture_output=True, preexec_fn=limited
        )
        tests.compare(
            "1 MiB of data for %d words" % len(words),
            b"",
            (status, output, b""),
            (done.returncode, done.stdout, done.stderr),
        )
    done = subprocess.run([program] + ["w" * 100_000] * 16, input=ACCEPTED, capture_output=True)
    tests.compare(
        "memory for 16 long words",
        b"",
        (2, b"s USAGE\n", b""),
        (done.returncode, done.stdout, done.stderr),
    )


def names_of_bytes(program, tests):
    """The program's name needn't be text; another word that isn't is no command."""
    for words, status, output in (
        ([b"\xff", b"check", b"perfect"], 0, b"s ACCEPTED\n"),
        ([b"\xff"], 2, b"s USAGE\n"),
        ([b"blossom", b"check", b"\xff"], 2, b"s USAGE\n"),
    ):
        done = subprocess.run(words, executable=program, input=ACCEPTED, capture_output=True)
        tests.compare(
            "words that aren't text: %r" % words,
            ACCEPTED,
            (status, output, b""),
            (done.returncode, done.stdout, done.stderr),
        )


def check(program, tests):
    for part in (
        full_device,
        closed_output,
        unreadable_input,
        untouched_input,
        little_memory,
        little_memory_for_words,
        names_of_bytes,
    ):
        part(program, tests)
