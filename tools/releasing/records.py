"""What a release says of itself: PROVED, the SBOM and SHA256SUMS."""

import datetime
import json
import re
import subprocess
import uuid

from crates import TOP, shell
from releasing.archives import sum_of
from releasing.tree import binaries, linked_crates

NO_GATE = "not run on these sources"


def gate_line():
    """Returns the last line of the gate that `./test` ran on these sources, or None."""
    try:
        sums = (TOP / "out/gate.sums").read_text(encoding="utf-8").splitlines()
        log = (TOP / "out/test/rt ci/log").read_text(encoding="utf-8", errors="replace")
    except OSError:
        return None
    found = re.findall(r"^\d+ passed, \d+ failed.*$", log, re.M)
    is_same = all(line == f"{line.split()[0]} {shell('sum_of', TOP, line.split()[0]).strip()}" for line in sums)
    return found[-1] if found and is_same else None


def proved(kit, tree, commit, gate, url):
    """Returns the text of PROVED: the release, the commit and the toolchain, the gate's last line, and the sums of what was proved and of
    what was built of it."""
    lines = [f"release   {shell('version').split(' (')[0].strip()}", f"commit    {commit.name}",
             f"time      {commit.time:%Y-%m-%dT%H:%M:%SZ}", f"toolchain {toolchain_line(kit)}", f"gate      {gate or NO_GATE}",
             f"url       {url}"]
    lines += ["", "# Each crate that is linked in, with the SHA-256 of its sources and of those of all crates below it."]
    lines += [f"{name} {shell('sum_of', TOP, name).strip()}" for name in linked_crates(kit)[0]]
    lines += ["", "# The programs and libraries, with their SHA-256."]
    built = [*binaries(tree), tree / "lib/libblobcrash.a"]
    lines += [f"{file.relative_to(tree)} {sum_of(file)}" for file in built]
    return "".join(line + "\n" for line in lines)


def toolchain_line(kit):
    """Returns what `rt version` prints."""
    return (kit / "KIT-ID").read_text(encoding="utf-8").strip()


def licence_of(kit, name):
    """Returns the SPDX expression of the licence of a crate of the toolchain, as its files have it."""
    folder = kit / "rattle" / name
    names = {it.name for it in folder.glob("LICENSE*")}
    texts = "".join(it.read_text(encoding="utf-8", errors="replace") for it in folder.glob("LICENSE*"))
    kinds = [kind for kind, sign in (("Apache-2.0", "Apache License"), ("MIT", "Permission is hereby granted")) if sign in texts]
    return " OR ".join(kinds) if names and kinds else "NOASSERTION"


def version_of(kit, name):
    """Returns the version of the Rust crate that a crate of the toolchain ports, as its page says, or None."""
    page = kit / "rattle" / name / "README.md"
    found = re.search(rf"`{name}`\s+(\d+\.\d+\.\d+)", page.read_text(encoding="utf-8")) if page.exists() else None
    return found[1] if found else None


def fuse_version():
    """Returns the version of libfuse 3 here, or None."""
    ran = subprocess.run(["pkg-config", "--modversion", "fuse3"], stdout=subprocess.PIPE, stderr=subprocess.DEVNULL, text=True)
    return ran.stdout.strip() or None


def package(name, version, licence, **more):
    made = {"SPDXID": f"SPDXRef-{re.sub('[^A-Za-z0-9.-]', '-', name)}", "name": name, "downloadLocation": "NOASSERTION",
            "filesAnalyzed": False, "licenseConcluded": licence, "licenseDeclared": licence, "copyrightText": "NOASSERTION", **more}
    return {**made, "versionInfo": version} if version else made


def packages(kit, version, url):
    """Returns the packages of the SBOM: first this one, then each with its relation to it."""
    kit_name = toolchain_line(kit).split()[0]
    own = package("blobcrash", version, "Apache-2.0", primaryPackagePurpose="LIBRARY", homepage=url)
    original = re.search(r"commonware-runtime (\S+),", (TOP / "NOTICE").read_text(encoding="utf-8"))[1]
    linked = [(package("commonware-runtime", original, "MIT OR Apache-2.0", comment="What blobcrash is a port of."), "DESCENDANT_OF")]
    for name in linked_crates(kit)[1]:
        ported = version_of(kit, name)
        comment = f"A port of the Rust crate {name} {ported} in {kit_name}." if ported else f"A crate of {kit_name}."
        linked.append((package(name, ported, licence_of(kit, name), comment=comment), "STATIC_LINK"))
    start = "The start files and the allocator of the toolchain: crti.o, crtn.o of glibc, crtbeginS.o, crtendS.o of GCC, libos_c.a, liblibc_c.a."
    linked.append((package(f"{kit_name}-c", None, "NOASSERTION", comment=start), "STATIC_LINK"))
    linked.append((package("glibc", None, "LGPL-2.1-or-later", comment="The C library of the machine."), "DYNAMIC_LINK"))
    linked.append((package("libfuse3", fuse_version(), "LGPL-2.1-only", comment="In the mount alone."), "STATIC_LINK"))
    return own, linked


def sbom(kit, version, commit, url):
    """Returns the SBOM, as JSON of SPDX 2.3."""
    own, linked = packages(kit, version, url)
    relations = [("SPDXRef-DOCUMENT", "DESCRIBES", own["SPDXID"])] + [(own["SPDXID"], how, it["SPDXID"]) for it, how in linked]
    number = uuid.uuid5(uuid.NAMESPACE_URL, f"blobcrash {version} {commit.name}")
    document = {
        "spdxVersion": "SPDX-2.3", "dataLicense": "CC0-1.0", "SPDXID": "SPDXRef-DOCUMENT", "name": f"blobcrash-{version}",
        "documentNamespace": f"urn:uuid:{number}",
        "creationInfo": {"created": f"{commit.time:%Y-%m-%dT%H:%M:%SZ}", "creators": [f"Tool: blobcrash-release-{version}"]},
        "packages": [own, *(it for it, _ in linked)],
        "relationships": [{"spdxElementId": one, "relationshipType": how, "relatedSpdxElement": other} for one, how, other in relations],
    }
    return json.dumps(document, indent=1) + "\n"


class Commit:
    """A commit: its name, its time, and who made it."""

    def __init__(self, name, seconds, author):
        self.name, self.seconds, self.author = name, seconds, author
        self.time = datetime.datetime.fromtimestamp(seconds, datetime.timezone.utc)
