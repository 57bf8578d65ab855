"""Makes the sources of a small program, in a copy of the crates that it stands on."""
import os
import shutil

TOP = os.path.dirname(os.path.dirname(os.path.abspath(__file__)))


def lines_of_crates():
    """What each crate cites, by crates.txt, in its order."""
    with open(os.path.join(TOP, "crates.txt")) as lines:
        return {line.split(":")[0]: line.split(":")[1].split() for line in lines if ":" in line and line[0] != "#"}


def all_below(cited, cites):
    """These crates of the repository and all that they stand on."""
    found = set()
    left = list(cited)
    while left:
        name = left.pop()
        if name in cites and name not in found:
            found.add(name)
            left += cites[name]
    return found


def copied(folder, name, cited, texts):
    """The crate of a program of this name, in a new repository: what it cites, and its texts by path."""
    cites = lines_of_crates()
    below = all_below(cited, cites)
    for crate in below:
        shutil.copytree(os.path.join(TOP, "crates", crate), os.path.join(folder, "crates", crate))
    with open(os.path.join(folder, "crates.txt"), "w") as out:
        out.write("".join(f"{crate}: {' '.join(cites[crate])}\n" for crate in cites if crate in below))
        out.write(f"{name}: {' '.join(cited)}\n")
    shutil.copy(os.path.join(TOP, "HANDLES"), folder)
    for path, text in texts.items():
        place = os.path.join(folder, "crates", name, path)
        os.makedirs(os.path.dirname(place), exist_ok=True)
        with open(place, "w") as out:
            out.write(text)
    return os.path.join(folder, "crates", name)
