"""The list of what a release is made of, in SPDX 2.3 as JSON."""
import json
from datetime import datetime, timezone
from pathlib import Path
from typing import Any

from .checksums import checksum
from .linked import Linked, linked
from .made import Made
from .running import said

OWN = "MIT OR Apache-2.0"


def write_sbom(made: Made, to: Path) -> Path:
    """Writes pertxogai-VERSION.spdx.json into the folder `to`: the release, its files that are built with their
    checksums, and the code of others that is linked. The same commit on the same machine gives the same bytes."""
    path = to / f"pertxogai-{made.version}.spdx.json"
    path.write_text(json.dumps(sbom(made), indent=1) + "\n")
    return path


def sbom(made: Made) -> dict[str, Any]:
    """The document as SPDX has it."""
    others = linked(said("rt", "version").strip(), _version("ldd"), _version("gcc"))
    built = [made.program, made.library / "libsketch.a", made.shared, made.wheel]
    when = datetime.fromtimestamp(made.time, timezone.utc).strftime("%Y-%m-%dT%H:%M:%SZ")
    return {
        "spdxVersion": "SPDX-2.3", "dataLicense": "CC0-1.0", "SPDXID": "SPDXRef-DOCUMENT",
        "name": f"pertxogai-{made.version}",
        "documentNamespace": f"urn:pertxogai:{made.version}:{checksum(made.program)}",
        "creationInfo": {"created": when, "creators": ["Organization: The Pertxogai authors", "Tool: ./release"]},
        "packages": [_own(made), *map(_package, range(len(others)), others)],
        "files": [_file(number, path) for number, path in enumerate(built)],
        "relationships": [
            _related("SPDXRef-DOCUMENT", "DESCRIBES", "SPDXRef-pertxogai"),
            *(_related("SPDXRef-pertxogai", "CONTAINS", f"SPDXRef-file-{number}") for number in range(len(built))),
            *(_related("SPDXRef-pertxogai", "STATIC_LINK", f"SPDXRef-linked-{number}") for number in range(len(others))),
        ],
    }


def _version(command: str) -> str:
    """The last word of the first line that a command tells of its version, as `2.36`."""
    return said(command, "--version").splitlines()[0].split()[-1].rstrip(")")


def _own(made: Made) -> dict[str, Any]:
    return {"SPDXID": "SPDXRef-pertxogai", "name": "pertxogai", "versionInfo": made.version,
            "downloadLocation": "NOASSERTION", "filesAnalyzed": False, "licenseConcluded": OWN,
            "licenseDeclared": OWN, "copyrightText": "Copyright 2026 The Pertxogai authors"}


def _package(number: int, other: Linked) -> dict[str, Any]:
    origin = [{"referenceCategory": "PACKAGE-MANAGER", "referenceType": "purl", "referenceLocator": other.origin}]
    return {"SPDXID": f"SPDXRef-linked-{number}", "name": other.name, "versionInfo": other.version,
            "downloadLocation": "NOASSERTION", "filesAnalyzed": False, "licenseConcluded": other.licence,
            "licenseDeclared": other.licence, "copyrightText": "NOASSERTION",
            **({"externalRefs": origin} if other.origin else {})}


def _file(number: int, path: Path) -> dict[str, Any]:
    return {"SPDXID": f"SPDXRef-file-{number}", "fileName": f"./{path.name}",
            "checksums": [{"algorithm": "SHA256", "checksumValue": checksum(path)}],
            "licenseConcluded": "NOASSERTION", "copyrightText": "NOASSERTION"}


def _related(one: str, how: str, other: str) -> dict[str, str]:
    return {"spdxElementId": one, "relationshipType": how, "relatedSpdxElement": other}
