"""Writes data/*.scene, the list of their names (args) and what is printed for them (stdout)."""

import os

from accepted import all_accepted
from listing import entry
from refused import all_refused

ROOT = os.path.dirname(os.path.dirname(os.path.abspath(__file__)))


def all_scenes():
    """File names and bytes, in name order."""
    scenes = {}
    pairs = list(all_accepted()) + [(name, data) for name, data, _, _ in all_refused()]
    for name, data in pairs:
        if name in scenes:
            raise ValueError(f"two scenes named {name}")
        scenes[name] = data
    return [(f"{name}.scene", scenes[name]) for name in sorted(scenes)]


def main():
    folder = os.path.join(ROOT, "data")
    os.makedirs(folder, exist_ok=True)
    for old in os.listdir(folder):
        if old.endswith(".scene"):
            os.remove(os.path.join(folder, old))
    scenes = all_scenes()
    for name, data in scenes:
        with open(os.path.join(folder, name), "wb") as out:
            out.write(data)
    with open(os.path.join(ROOT, "args"), "w", newline="\n") as out:
        out.writelines(name + "\n" for name, _ in scenes)
    with open(os.path.join(ROOT, "stdout"), "w", newline="\n") as out:
        out.writelines(entry(name, data) for name, data in scenes)
    print(len(scenes), "scenes,", sum(len(data) for _, data in scenes), "bytes")


if __name__ == "__main__":
    main()
