"""What a built program was built from: the crates that it needs, their files, and a digest over them."""
import hashlib
import os

from command.failure import Failure, reason

PARTS = ("src", "specs", "proofs")


def dependencies(text):
    """The lines of crates.txt: for each crate the names that it knows, those of the kit among them. Behind a crate's own
    name more may stand: `screen_api staticlib: lists`."""
    lines = (line.split("#", 1)[0].strip() for line in text.splitlines())
    return {name.split()[0]: known.split() for name, _, known in (line.partition(":") for line in lines if line)}


def needed(names, known):
    """The crates that these need, themselves included, in the order of crates.txt."""
    found, todo = set(), list(names)
    while todo:
        name = todo.pop()
        if name in known and name not in found:
            found.add(name)
            todo += known[name]
    return [name for name in known if name in found]


def files_of(root, crates):
    """Size and time of each file of the crates, by its path from the root: whatever changes one changes this."""
    found = {"crates.txt": seal(os.stat(os.path.join(root, "crates.txt")))}
    todo = [os.path.join("crates", name, part) for name in crates for part in PARTS]
    while todo:
        folder = todo.pop()
        try:
            with os.scandir(os.path.join(root, folder)) as entries:
                for entry in entries:
                    path = f"{folder}/{entry.name}"
                    if entry.is_dir(follow_symlinks=False):
                        todo.append(path)
                    else:
                        found[path] = seal(entry.stat())
        except FileNotFoundError:  # not every crate has all parts
            pass
    return found


def seal(status):
    return [status.st_size, status.st_mtime_ns]


def digest_of(root, paths):
    """One number over the names and contents of the files."""
    whole = hashlib.sha256()
    for path in sorted(paths):
        with open(os.path.join(root, path), "rb") as file:
            data = file.read()
        whole.update(f"{len(path.encode())} {path} {len(data)} ".encode() + data)
    return whole.hexdigest()


def sources_of(root, names):
    """The files of all crates that these need. Raises Failure if the sources can't be read."""
    try:
        with open(os.path.join(root, "crates.txt"), encoding="utf-8") as file:
            known = dependencies(file.read())
        missing = [name for name in names if name not in known]
        if missing:
            raise Failure(f"crates.txt does not name {', '.join(missing)}")
        return files_of(root, needed(names, known))
    except OSError as error:
        raise Failure(f"the sources cannot be read: {error.filename}: {reason(error)}") from error
