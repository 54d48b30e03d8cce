"""Sheets as bytes and as words, and ./barge run on them: what the checks of its commands share."""
import os, resource, subprocess, sys

os.chdir(os.path.join(os.path.dirname(os.path.abspath(__file__)), ".."))

# Proved and built first, since ./barge tells on standard error what it proves when a program is not there.
BUILD = ". tools/kit && for program in barge barge_explain barge_edit barge_text; do kit_build $program || exit 1; done"
if subprocess.run(["bash", "-c", BUILD], stdin=subprocess.DEVNULL).returncode != 0:
    sys.exit(f"{os.path.basename(sys.argv[0])}: the programs could not be built")


def packed(*fields):
    """Bytes of fields, each a value and a width in bits, most significant first."""
    number = bits = 0
    for value, width in fields:
        number, bits = number << width | value, bits + width
    return number.to_bytes(bits // 8, "big")


def own_of_2(depth):
    return packed((300000, 27), (depth, 10), (0, 27))


# What a version's header has of its own: in version 2 ZDB 300,000 and depth 300.
OWN = {1: b"", 2: own_of_2(300)}


def sheet(records, version=1):
    """Vessel V with these records."""
    header = packed((version, 4), (8000, 14), (250, 10), (60, 8), (0, 1), (20000, 20), (200000, 27), (len(records), 9), (0, 3))
    return header + OWN[version] + b"".join(records)


def floor(number, thickness, modulus, area):
    """Case 11 with this id and these scantlings: the rules require 508, 1996 and 310."""
    return packed((6, 4), (number, 10), (0, 10), (500, 12), (500, 10), (thickness, 12), (100, 7), (100, 7), (100, 7), (0, 8), (modulus, 17), (area, 14), (1000, 10))


def plate(number, thickness):
    """The document's bottom plate with this id and thickness."""
    return packed((2, 4), (number, 10), (1000, 10), (0, 10), (500, 12), (thickness, 12), (0, 10), (0, 10), (0, 1), (0, 11), (0, 18), (0, 20))


def run(words, data=b"", **how):
    ran = subprocess.run(["./barge", *map(str, words)], input=data, stdout=subprocess.PIPE, stderr=subprocess.PIPE, **how)
    return ran.returncode, ran.stdout.decode(), ran.stderr.decode()


def expect(what, got, status, printed):
    if got[:2] != (status, printed):
        sys.exit(f"{os.path.basename(sys.argv[0])}: {what} is answered with status {got[0]}, not {status}, and\n{got[1][:300]}{got[2][:300]}")


def status_of(answer):
    last = answer.split("\n")[-2]
    return 2 if last.startswith("refused ") else 0 if last.endswith(" 0") else 1


def written(path, data):
    with open(path, "wb") as f:
        f.write(data)
    return path


def content(path):
    with open(path, "rb") as f:
        return f.read()


def floor_words(number, thickness, modulus, area):
    return 6, number, 0, 500, 500, thickness, 100, 100, 100, 0, modulus, area, 1000


def plate_words(number, thickness):
    return 2, number, 1000, 0, 500, thickness, 0, 0, 0, 0, 0


def state(folder):
    """Each name in a folder, with what the file has."""
    return {name: os.path.isdir(os.path.join(folder, name)) or content(os.path.join(folder, name)) for name in os.listdir(folder)}


def limited():
    """A file may not grow past 1,000 bytes, so that a longer sheet is written in part."""
    resource.setrlimit(resource.RLIMIT_FSIZE, (1000, 1000))


# ---- what this machine cannot try


def not_tried(reason):
    """It is no failure, and the gate lists it at its end."""
    print(f"{os.path.basename(sys.argv[0])}: not tried: {reason}")
    os.makedirs("target", exist_ok=True)
    with open("target/not-tried", "a") as f:
        f.write(f"{os.path.basename(sys.argv[0])}: {reason}\n")


def another():
    """A user who is not root, for whoever is; None where there is no running as one."""
    who = {"user": 65534, "group": 65534, "extra_groups": []} if os.geteuid() == 0 else {}
    return who if run(["--help"], **who)[0] == 0 else None
