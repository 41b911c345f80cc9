"""A zone that is held (`Zone` of bindings/python), to which updates are applied one after the other."""
import os
import sys

from common import ROOT, missing

sys.path.insert(0, os.path.join(ROOT, "bindings", "python"))
try:
    import fuzsbanel
except ImportError as fault:
    missing(str(fault))


class Held:
    """The zone of a text, and what comes of an update: the number of the code, or minus that of a refusal, and whether it
    is told that anything changed."""

    def __init__(self, origin, text):
        self.zone = fuzsbanel.Zone(origin, text)

    def update(self, update):
        try:
            return self.zone.update(update)
        except fuzsbanel.Refusal as refusal:
            return -refusal.number, False

    def answer(self, received, most):
        """The bytes that are sent, or minus the number of a refusal."""
        try:
            return self.zone.answer(received, most)
        except fuzsbanel.Refusal as refusal:
            return -refusal.number

    def lines(self):
        """A line for each record, or a refusal's number alone."""
        try:
            return self.zone.text().splitlines()[1:]
        except fuzsbanel.Refusal as refusal:
            return [str(refusal.number)]


def held(origin, text):
    """The zone of a text, or the number of the refusal."""
    try:
        return Held(origin, text)
    except fuzsbanel.Refusal as refusal:
        return refusal.number
