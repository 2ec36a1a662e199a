"""tools/gather-fonts, where TeX Live is installed."""

import os
import shutil
import subprocess

from running import TOP, Folder, check

TOOL = os.path.join(TOP, "tools", "gather-fonts")


def gather():
    if not all(shutil.which(name) for name in ("kpsewhich", "mktexpk")):
        print("tests: no kpsewhich or mktexpk on this machine, so tools/gather-fonts wasn't run")
        return
    if subprocess.run(["kpsewhich", "cmr10.tfm"], capture_output=True).returncode:
        print("tests: this TeX Live has no cmr10, so tools/gather-fonts wasn't run")
        return
    import documents as dvi

    content = dvi.document([(1, b"\xab\x41")], fonts=dvi.font_definition())
    with Folder(in_dvi=content) as folder:
        done = subprocess.run([TOOL, "in.dvi", "300"], cwd=folder.path, capture_output=True)
        check("gather-fonts", (done.returncode, done.stderr), (0, b""))
        check("gather-fonts, files", sorted(os.listdir(folder.path)), ["cmr10.300pk", "cmr10.tfm", "in.dvi"])
        status, out, said = folder.run("dvips", "-D", "300", "-q", "-o", "-", "in")
        check("what was gathered is enough", (status, said, out.count(b"(A)p\n")), (0, b"", 1))
        done = subprocess.run([TOOL, "no.dvi"], cwd=folder.path, capture_output=True)
        check("gather-fonts without a document", (done.returncode, done.stderr), (1, b"gather-fonts: no.dvi isn't there\n"))


PARTS = (gather,)
