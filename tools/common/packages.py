"""Archives of the same bytes each time: files in one order, of one owner and one time."""
import dataclasses
import gzip
import hashlib
import io
import os
import pathlib
import subprocess
import tarfile
import tempfile


@dataclasses.dataclass(frozen=True)
class File:
    """A file of a package: its path, its bytes and its mode; or a link to a name beside it."""

    path: str
    data: bytes = b""
    mode: int = 0o644
    link: str = ""


def compressed(data):
    """Bytes by gzip, without a name and a time."""
    out = io.BytesIO()
    with gzip.GzipFile(filename="", mode="wb", compresslevel=9, fileobj=out, mtime=0) as it:
        it.write(data)
    return out.getvalue()


def folders_of(files):
    """The folders that these files stand in, from the top."""
    return sorted({folder.as_posix() for it in files for folder in pathlib.PurePosixPath(it.path).parents} - {"."})


def tar(files, root, time):
    """The archive of these files below a folder of that name."""

    def member(name, kind, mode, size=0, link=""):
        found = tarfile.TarInfo(f"{root}/{name}" if name else root)
        found.type, found.mode, found.size, found.linkname = kind, mode, size, link
        found.mtime, found.uname, found.gname = time, "root", "root"
        return found

    out = io.BytesIO()
    with tarfile.open(fileobj=out, mode="w", format=tarfile.USTAR_FORMAT) as archive:
        for folder in ["", *folders_of(files)]:
            archive.addfile(member(folder, tarfile.DIRTYPE, 0o755))
        for it in sorted(files, key=lambda it: it.path):
            if it.link:
                archive.addfile(member(it.path, tarfile.SYMTYPE, 0o777, link=it.link))
            else:
                archive.addfile(member(it.path, tarfile.REGTYPE, it.mode, len(it.data)), io.BytesIO(it.data))
    return compressed(out.getvalue())


def write_files(files, folder):
    """Writes the files below a folder."""
    for name in folders_of(files):
        pathlib.Path(folder, name).mkdir(mode=0o755, exist_ok=True)
    for it in files:
        path = pathlib.Path(folder, it.path)
        if it.link:
            path.symlink_to(it.link)
        else:
            path.write_bytes(it.data)
            path.chmod(it.mode)


def set_times(folder, time):
    for at, folders, files in os.walk(folder):
        for name in [*folders, *files, "."]:
            os.utime(f"{at}/{name}", (time, time), follow_symlinks=False)


def write_deb(path, control, files, time):
    """Writes a Debian package of these files; `control` has the files of its folder DEBIAN."""
    sums = "".join(f"{hashlib.md5(it.data, usedforsecurity=False).hexdigest()}  {it.path}\n" for it in sorted(files, key=lambda it: it.path) if not it.link)
    own = [File(f"DEBIAN/{it.path}", it.data, it.mode) for it in [*control, File("md5sums", sums.encode())]]
    with tempfile.TemporaryDirectory() as folder:
        os.chmod(folder, 0o755)
        before = os.umask(0o022)
        try:
            write_files([*own, *files], folder)
        finally:
            os.umask(before)
        set_times(folder, time)
        words = ["dpkg-deb", "--root-owner-group", "--threads-max=1", "-Zxz", "--build", folder, str(path)]
        subprocess.run(words, check=True, stdout=subprocess.DEVNULL, env={**os.environ, "SOURCE_DATE_EPOCH": str(time)})


def sums(folder):
    """A line for each file of a folder, as sha256sum writes it."""
    return "".join(f"{hashlib.sha256(it.read_bytes()).hexdigest()}  {it.name}\n" for it in sorted(pathlib.Path(folder).iterdir()) if it.is_file())
