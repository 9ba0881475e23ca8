"""Real XYZ files: those of examples/, and texts as other programs write them."""
import pathlib
from typing import Iterator

from writing.words import Written, lines, load, load_mix, shows, written

EXAMPLES = pathlib.Path(__file__).resolve().parents[2] / "examples"

# As programs write them: extended XYZ with a lattice; of several frames; with types in place of symbols; of Fortran; with
# tabs and CR LF; with charges and velocities behind; with labels.
TEXTS = {
    "extended": (
        '3\nLattice="10.0 0.0 0.0 0.0 10.0 0.0 0.0 0.0 10.0" Properties=species:S:1:pos:R:3:momenta:R:3 pbc="T T T"\n'
        "Ar       0.00000000       0.00000000       0.00000000       0.12345678      -0.50000000       0.00000000\n"
        "Ar       3.72000000       0.00000000       0.00000000      -0.12345678       0.50000000       0.00000000\n"
        "Ar      -1.00000000      12.50000000       9.99999999       0.00000000       0.00000000       0.00000000\n"
    ),
    "frames": "".join(
        f"2\n i = {number}, time = {number}.000, E = -1.23\n  Ar   {0.1 * number:9.6f}  0.0  0.0\n  Ar   3.8  {0.01 * number:9.6f}  0.0\n"
        for number in range(4)
    ),
    "types": "3\nAtoms. Timestep: 0\n1 0 0 0\n2 3.80001 0 0\n1 0 3.80001 -1.2e-05\n",
    "fortran": "    2\n\n AR   0.000000000000D+00  0.123456789012D+01 -0.500000000000D-01\n AR   0.380000000000E+01  0.0d0  1.D0\n",
    "returns": "2\r\nwritten on another system\r\nAr\t0.0\t0.0\t0.0\r\nAr\t3.8\t0.0\t0.0\r\n\r\n",
    "behind": "2\nmolecule\nAr 0.0 0.0 0.0 0.5 1 resname # remark\nAr 3.8 0 0 -0.5 2 resname\n\n\n",
    "labels": "\n\n 2   atoms\n\nAr1 0.0 0.0 0.0\nAr2+ .38e1 -0. 00.0",
}


def of_texts() -> Iterator[Written]:
    asked = lines("MEASURE a", "ADVANCE a 3", "MEASURE a", "DUMP a", "SHOW a 0", "REVERSE a", "DUMP a", "SHOW a 1", "DROP a")
    for name, text in TEXTS.items():
        loads = [load(text, "20 3.4 131072"), asked, load(text, "20 3.4 131072", mode="pair"), asked]
        mixed = load_mix(text, "20 1 2 3.4 131072 256 3 100000 300 2.5 90000 200"), asked
        yield written(f"files/{name}", [*loads, *mixed])


def of_examples() -> Iterator[Written]:
    argon = load((EXAMPLES / "argon_256.xyz").read_bytes().decode(), "21.04 3.4 131072")
    yield written("files/argon_256", [argon, "DUMP a\nMEASURE a\nADVANCE a 10\nMEASURE a\nDUMP a\n", shows(256)])
    salt = (EXAMPLES / "sodium_chloride.xyz").read_bytes().decode()
    words = "22.56 Na Cl 2.35 100000 256 2.8 120000 400 4.4 90000 180"
    yield written("files/salt_512", [load_mix(salt, words), "DUMP a\nMEASURE a\nADVANCE a 5\nMEASURE a\n", shows(512)])
    large = load((EXAMPLES / "argon_4000.xyz").read_bytes().decode(), "52.6 3.4 131072")
    yield written("files/argon_4000", [large, "MEASURE a\nADVANCE a 2\nMEASURE a\n", shows(4000)])


def streams() -> Iterator[Written]:
    yield from of_texts()
    yield from of_examples()
