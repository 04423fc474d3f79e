"""Makes one site of the documents, which can be searched: tools/site [FOLDER].

FOLDER is where it goes, `out/site` at the top if it is not named. The site has README, docs, CONTRIBUTING, SECURITY, CHANGELOG, and the READMEs of
bench, hdl and examples, with the links between them. It is made by mkdocs of Debian (apt-get install mkdocs), and uses nothing from other
hosts. The search needs a web server:

    tools/site /tmp/site && python3 -m http.server --directory /tmp/site

Status 69: mkdocs is missing. Status 70: the documents are wrong, or mkdocs refuses them; a line says why.
"""

import json
import os
import shutil
import subprocess
import sys
import tempfile

from tlxtools.crate_list import TOP
from tlxtools.site_pages import Fault, navigation, source, titled

MISSING, REFUSED = 69, 70


def settings(top, where, to):
    """The file mkdocs.yml; JSON is YAML."""
    return json.dumps({
        "site_name": "tlx", "site_url": "", "docs_dir": where, "site_dir": to, "use_directory_urls": False,
        # nothing is taken from other hosts
        "theme": {"name": "mkdocs", "highlightjs": False, "nav_style": "dark"}, "plugins": ["search"],
        "markdown_extensions": ["attr_list", "sane_lists"], "nav": titled(top, navigation(top))})


def build(top, to):
    """Makes the site."""
    with tempfile.TemporaryDirectory() as folder:
        where, file = os.path.join(folder, "docs"), os.path.join(folder, "mkdocs.yml")
        source(top, where)
        with open(file, "w", encoding="utf-8") as out:
            out.write(settings(top, where, to))
        run = subprocess.run(["mkdocs", "build", "--strict", "--quiet", "--clean", "--config-file", file], capture_output=True, text=True, check=False)
    if run.returncode:
        raise Fault(f"mkdocs refuses the documents: {(run.stderr or run.stdout).strip()}")


def main(words, top=TOP):
    if words in (["--help"], ["-h"]):
        print(__doc__.strip())
        return 0
    if len(words) > 1 or words and words[0].startswith("-"):
        print("usage: tools/site [FOLDER]", file=sys.stderr)
        return 64
    if shutil.which("mkdocs") is None:
        print("tools/site: mkdocs is missing; on Debian and Ubuntu: apt-get install mkdocs", file=sys.stderr)
        return MISSING
    to = os.path.abspath(words[0] if words else os.path.join(top, "out", "site"))
    try:
        build(top, to)
    except Fault as fault:
        print(f"tools/site: {fault}", file=sys.stderr)
        return REFUSED
    print(os.path.join(to, "index.html"))
    return 0
