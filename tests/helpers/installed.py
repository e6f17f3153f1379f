"""The C library below a prefix, as `make install` puts it there."""
import pathlib
import shutil

ROOT = pathlib.Path(__file__).resolve().parents[2]


def install(prefix, library, version):
    """Copies header and libraries below a prefix, and writes bplist.pc for this version."""
    for folder in ("include", "lib/pkgconfig"):
        (prefix / folder).mkdir(parents=True)
    shutil.copy(ROOT / "include/bplist.h", prefix / "include")
    for name in ("libbplist.a", "libbplist.so.0"):
        shutil.copy(library / name, prefix / "lib")
    (prefix / "lib/libbplist.so").symlink_to("libbplist.so.0")
    write_pc(prefix, version)


def write_pc(prefix, version):
    text = (ROOT / "bplist.pc.in").read_text()
    words = {"PREFIX": f"{prefix}", "LIBDIR": "${prefix}/lib", "INCLUDEDIR": "${prefix}/include", "VERSION": version}
    for word, value in words.items():
        text = text.replace(f"@{word}@", value)
    (prefix / "lib/pkgconfig/bplist.pc").write_text(text)
