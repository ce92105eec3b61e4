"""A place in which packages are tried: this machine's Debian without the kit, the repository and a network.

It is a layer over the machine's root folder in a namespace of its own. What is written goes to memory and is gone at the
end; before that, it shows what an installed package has left. It is run with these words, by root:

    unshare --mount --pid --fork --net --kill-child python3 -m release.place PACKAGES VERSION HIDDEN COMMAND ..
"""
import os
import subprocess
import sys

HERE = os.path.dirname(os.path.abspath(__file__))
ROOM = next(folder for folder in ("/dev/shm", "/mnt", "/tmp") if os.path.isdir(folder))
KEPT = ("var/lib/dpkg", "var/log", "var/cache", "var/lib/systemd", "packages", "tmp", "root")
"""The folders in which Debian's own tools write."""
SPACES = ["unshare", "--mount", "--pid", "--fork", "--net", "--kill-child"]
"""The words that give a command a namespace of its own; only root can mount what a place needs there."""
EMPTY = ("opt", "home", "root", "usr/local", "srv", "mnt", "media", "tmp")


def run(*words):
    subprocess.run(words, check=True)


def mount_place(hidden):
    """Mounts the place, in which the hidden folders are empty, and gives it and the layer that takes what is written."""
    run("mount", "--make-rprivate", "/")
    run("mount", "-t", "tmpfs", "-o", "size=1500m", "none", ROOM)
    layer, work, place = (os.path.join(ROOM, name) for name in ("layer", "work", "place"))
    for folder in (layer, work, place):
        os.mkdir(folder)
    run("mount", "-t", "overlay", "overlay", "-o", f"lowerdir=/,upperdir={layer},workdir={work}", place)
    for name in {*EMPTY, *hidden}:
        at = os.path.join(place, name)
        if os.path.isdir(at):
            run("mount", "-t", "tmpfs", "none", at)
    for name in ("dev", "dev/pts", "proc"):
        os.makedirs(os.path.join(place, name), exist_ok=True)
    run("mount", "--rbind", "/dev", os.path.join(place, "dev"))
    run("mount", "-t", "proc", "proc", os.path.join(place, "proc"))
    os.chmod(os.path.join(place, "tmp"), 0o1777)
    return place, layer


def in_place(root, words):
    """The words that run a command in another root folder, without the network and with nothing of this environment."""
    return [*SPACES, "--mount-proc=" + os.path.join(root, "proc"), *inside(root, words)]


def inside(root, words):
    """The words that run a command in another root folder, with nothing of this environment."""
    said = ["PATH=/usr/sbin:/usr/bin:/sbin:/bin", "DEBIAN_FRONTEND=noninteractive", "LC_ALL=C.UTF-8", "PYTHONDONTWRITEBYTECODE=1"]
    return ["chroot", root, "/usr/bin/env", "-i", *said, *words]


def left(layer):
    """What is left in the layer that the machine hasn't, but where Debian's own tools write."""
    for at, folders, files in os.walk(layer):
        inside = os.path.relpath(at, layer)
        folders[:] = [name for name in folders if os.path.normpath(os.path.join(inside, name)) not in KEPT]
        for name in [*folders, *files]:
            path = os.path.join(at, name)
            original = os.path.join("/", inside, name)
            is_new = not os.path.lexists(original)
            if is_new or name in files and changed(path, original):
                yield os.path.normpath(original)


def changed(path, original):
    """Whether a file of the layer has other bytes than the machine's."""
    if os.path.islink(path) or not os.path.isfile(path) or not os.path.isfile(original):
        return True
    with open(path, "rb") as one, open(original, "rb") as other:
        return one.read() != other.read()


def main(packages, version, hidden, *commands):
    """Tries the packages in the place, and says what they leave there."""
    try:
        place, layer = mount_place([name for name in hidden.split(":") if name])
    except (OSError, subprocess.CalledProcessError) as fault:
        print(f"    this machine lets no layer be mounted over its root folder: {fault}")
        return 1
    os.mkdir(os.path.join(place, "packages"))
    run("cp", "--recursive", f"{packages}/.", os.path.join(place, "packages"))
    with open(os.path.join(HERE, "trial.py"), "rb") as trial:
        words = ["/usr/bin/python3", "-", "/packages", version, *commands]
        status = subprocess.run(inside(place, words), stdin=trial, check=False).returncode
    found = sorted(left(layer))
    for path in found:
        print(f"    {path} is left when the packages are removed")
    return 1 if status or found else 0


if __name__ == "__main__":
    sys.exit(main(*sys.argv[1:]))
