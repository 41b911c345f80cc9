"""Updates and questions for a zone, as messages."""
from .library import filled


def create(id_: int, origin: str, set_text: str, use_edns: bool = False) -> bytes:
    """The update that creates a set, if the zone has none of that owner and type."""
    return filled(512, "create", id_, origin, set_text, use_edns)


def append(id_: int, origin: str, set_text: str, must_exist: bool = False, use_edns: bool = False) -> bytes:
    """The update that adds records to a set; with `must_exist`, if the zone has one of that owner and type."""
    return filled(512, "append", id_, origin, set_text, must_exist, use_edns)


def compare_and_swap(id_: int, origin: str, current: str, new: str, use_edns: bool = False) -> bytes:
    """The update that puts a set in the place of another, if the zone has exactly that."""
    return filled(512, "compare_and_swap", id_, origin, current, new, use_edns)


def delete_by_rdata(id_: int, origin: str, set_text: str, use_edns: bool = False) -> bytes:
    """The update that takes the data of a set out of the zone."""
    return filled(512, "delete_by_rdata", id_, origin, set_text, use_edns)


def delete_rrset(id_: int, origin: str, owner: str, record_type: int, use_edns: bool = False) -> bytes:
    """The update that takes the set of an owner and a type out of the zone."""
    return filled(512, "delete_rrset", id_, origin, owner, record_type, use_edns)


def delete_all(id_: int, origin: str, owner: str, use_edns: bool = False) -> bytes:
    """The update that takes all sets of an owner out of the zone."""
    return filled(512, "delete_all", id_, origin, owner, use_edns)


def zone_transfer(id_: int, origin: str, last_soa: str = "") -> bytes:
    """The question for all of a zone, or for what changed since the SOA that is zone text of one record."""
    return filled(512, "zone_transfer", id_, origin, last_soa)
