"""The refusals of the protocol, one class for each: the class of `ERR 10 NO_SESSION` is `NoSession`.

`except refusals.NoSession` catches one of them, and `except Refused` all.
"""
from __future__ import annotations

from .errors import Refused


class Denied(Refused):
    number, name, meaning = 1, "DENIED", "the server knows no user of that name and token"


class Line(Refused):
    number, name, meaning = 2, "LINE", "the line is longer than 256 bytes"


class Syntax(Refused):
    number, name, meaning = 3, "SYNTAX", "a wrong number of words, a word that is not of its shape, or one symbol for both species"


class Body(Refused):
    number, name, meaning = 4, "BODY", "LOAD or LOADMIX does not end with a count of bytes; the connection has ended"


class Long(Refused):
    number, name, meaning = 5, "LONG", "65,536 bytes without a line end; the connection has ended"


class Command(Refused):
    number, name, meaning = 6, "COMMAND", "there is no such command"


class Enough(Refused):
    number, name, meaning = 8, "ENOUGH", "a connection has a million commands at most; it has ended"


class NoSession(Refused):
    number, name, meaning = 10, "NO_SESSION", "there is no session of that name"


class Exists(Refused):
    number, name, meaning = 11, "EXISTS", "there is a session of that name already"


class NoBranch(Refused):
    number, name, meaning = 12, "NO_BRANCH", "nothing is saved under that name"


class BranchExists(Refused):
    number, name, meaning = 13, "BRANCH_EXISTS", "something is saved under that name already"


class NoAtom(Refused):
    number, name, meaning = 14, "NO_ATOM", "there is no atom of that number; atoms are numbered from 0"


class QuotaSessions(Refused):
    number, name, meaning = 20, "QUOTA_SESSIONS", "the quota of sessions is used up; drop one"


class QuotaAtoms(Refused):
    number, name, meaning = 21, "QUOTA_ATOMS", "the quota of atoms has no room for these"


class QuotaBranches(Refused):
    number, name, meaning = 22, "QUOTA_BRANCHES", "the quota of saved simulations is used up; forget one"


class StepRange(Refused):
    number, name, meaning = 23, "STEP_RANGE", "more than 1,000,000 steps at once, or a step number beyond 10^12"


class XyzCount(Refused):
    number, name, meaning = 30, "XYZ_COUNT", "there should be a number of atoms from 1 to 4096"


class XyzShort(Refused):
    number, name, meaning = 31, "XYZ_SHORT", "the line is missing, or has fewer than four words"


class XyzSymbol(Refused):
    number, name, meaning = 32, "XYZ_SYMBOL", "the first word is no symbol of 1 to 16 printing characters"


class XyzNumber(Refused):
    number, name, meaning = 33, "XYZ_NUMBER", "a coordinate is no decimal number"


class XyzRange(Refused):
    number, name, meaning = 34, "XYZ_RANGE", "a coordinate is beyond 1,000,000"


class XyzPair(Refused):
    number, name, meaning = 35, "XYZ_PAIR", "the second frame has no count line, or another count of atoms"


class Edge(Refused):
    number, name, meaning = 36, "EDGE", "the edge of the box is no decimal number from 0.001 to 1000000"


class Sigma(Refused):
    number, name, meaning = 37, "SIGMA", "sigma is no decimal number, or not below a fifth of the edge, or too small beside it"


class StepFactor(Refused):
    number, name, meaning = 38, "STEP_FACTOR", "h is no whole number from 1 to 16777216"


class XyzSpecies(Refused):
    number, name, meaning = 39, "XYZ_SPECIES", "the symbol is neither of the two species of the mixture"


class Weight(Refused):
    number, name, meaning = 40, "WEIGHT", "the weight of a class is no whole number from 1 to 65536"


class Memory(Refused):
    number, name, meaning = 90, "MEMORY", "the server is out of memory"
