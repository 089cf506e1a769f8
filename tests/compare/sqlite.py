"""SQLite's side of the comparison: a table of 64 pages of 32 bytes, one transaction a set, one UPDATE a page.

    sqlite.py MODE BYTES DIRECTORY make               every page stored
    sqlite.py MODE BYTES DIRECTORY store SETS SIZE    opens it and stores so many sets of so many pages

MODE is delete (a rollback journal) or wal; BYTES is the size of the file's own pages.
"""
import sqlite3
import sys

PAGES = 64
WIDTH = 32


def opened(directory, mode, file_page):
    volume = sqlite3.connect(f"{directory}/pages.db", isolation_level=None)
    volume.execute(f"PRAGMA page_size={file_page}")
    if volume.execute(f"PRAGMA journal_mode={mode}").fetchone() != (mode,):
        sys.exit(f"sqlite.py: no journal mode {mode}")
    volume.execute("PRAGMA synchronous=FULL")
    return volume


def make(volume):
    volume.execute("BEGIN")
    volume.execute("CREATE TABLE pages (page INTEGER PRIMARY KEY, bytes BLOB NOT NULL)")
    volume.executemany("INSERT INTO pages VALUES (?, ?)", ((page, bytes(WIDTH)) for page in range(PAGES)))
    volume.execute("COMMIT")


def store(volume, n, size):
    """Set n: `size` pages that follow those of set n-1, with bytes of its own."""
    volume.execute("BEGIN")
    for i in range(size):
        done = volume.execute("UPDATE pages SET bytes = ? WHERE page = ?", (bytes([n % 256]) * WIDTH, (n * size + i) % PAGES))
        if done.rowcount != 1:
            sys.exit("sqlite.py: a page is missing")
    volume.execute("COMMIT")


def main(mode, file_page, directory, command, sets=0, size=0):
    volume = opened(directory, mode, file_page)
    if command == "make":
        make(volume)
    for n in range(1, int(sets) + 1):
        store(volume, n, int(size))
    volume.close()


if __name__ == "__main__":
    if len(sys.argv) < 5 or len(sys.argv) != {"make": 5, "store": 7}.get(sys.argv[4]):
        sys.exit(__doc__)
    main(*sys.argv[1:])
