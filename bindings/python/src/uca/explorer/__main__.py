"""Starts the explorer: python -m uca.explorer --help"""

from __future__ import annotations

import argparse
import sys
import webbrowser

import uca

from . import __doc__ as about
from ._files import Files, NotFound
from ._server import Explorer, Server


def main() -> int:
    parser = argparse.ArgumentParser(prog="python -m uca.explorer", description=(about or "").split("\n\n", 1)[1])
    parser.add_argument("--table", metavar="FILE", help="the table, in the format of allkeys.txt; by default that of UCA_TABLE, or an installed one")
    parser.add_argument("--rules", metavar="FOLDER", help="a folder with *.rules files; by default the installed one")
    parser.add_argument("--port", type=int, default=0, help="a port of the loopback address; by default a free one")
    parser.add_argument("--no-browser", action="store_true", help="only print the address")
    words = parser.parse_args()
    try:
        files = Files(words.table, words.rules)
        uca.Collator(files.table).close()
        server = Server(Explorer(files), words.port)
    except (NotFound, OSError, OverflowError, uca.TableError) as error:
        print("uca.explorer: %s" % error, file=sys.stderr)
        return 3
    print(server.address, flush=True)
    if not words.no_browser:
        webbrowser.open(server.address)
    try:
        server.serve_forever()
    except KeyboardInterrupt:
        pass
    server.server_close()
    return 0


if __name__ == "__main__":
    sys.exit(main())
