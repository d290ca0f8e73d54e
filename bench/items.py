"""Items in Python's standard library: read from fields that are split already, and written as rows."""
import datetime
import re

DAY = re.compile(r"\d{4}-\d\d-\d\d\Z", re.ASCII)
LABEL = re.compile(r"[A-Z0-9]+\Z")
CONTROL = re.compile(r"[\x00-\x1f\x7f]")
BLANK = ["", "", "", "", ""]


class Fault(Exception):
    """The first field of a wrong form, from 1, or 0 for a wrong number of fields."""


def number(text, width, low, high, field):
    if not text or len(text) > width or not text.isascii() or not text.isdigit():
        raise Fault(field)
    n = int(text)
    if not low <= n <= high:
        raise Fault(field)
    return n


def uprn(text, field):
    return number(text, 12, 1, 999_999_999_999, field)


def usrn(text, field):
    return number(text, 8, 1, 99_999_999, field)


def code(text, codes, field):
    if text not in codes:
        raise Fault(field)
    return text


def label(text, most, field):
    if len(text) > most or not LABEL.match(text):
        raise Fault(field)
    return text


def text_of(text, most, field):
    if not text or len(text) > most or text[0] == " " or text[-1] == " " or CONTROL.search(text):
        raise Fault(field)
    return text


def day(text, field):
    if not DAY.match(text):
        raise Fault(field)
    try:
        return datetime.date.fromisoformat(text)
    except ValueError:
        raise Fault(field) from None


def end_day(text, start, field):
    if not text:
        return None
    end = day(text, field)
    if end < start:
        raise Fault(field)
    return end


def house(digits, suffix, field):
    """A house number, as it is ordered; None where both fields are empty."""
    if not digits:
        if suffix:
            raise Fault(field)
        return None
    if suffix and not (len(suffix) == 1 and "A" <= suffix <= "Z"):
        raise Fault(field)
    return number(digits, 4, 1, 9999, field), suffix


def object_of(fields, field):
    start, end, text = house(fields[0], fields[1], field), house(fields[2], fields[3], field), fields[4]
    if end and (not start or end <= start):
        raise Fault(field)
    if text:
        text_of(text, 90, field)
    elif not start:
        raise Fault(field)
    return start, end, text


def counted(fields, count):
    if len(fields) != count:
        raise Fault(0)


def read_street(f):
    counted(f, 4)
    n, sort, start = usrn(f[0], 1), number(f[1], 1, 1, 4, 2), day(f[2], 3)
    return n, sort, start, end_day(f[3], start, 4)


def read_descriptor(f):
    counted(f, 6)
    n, lang, description = usrn(f[0], 1), code(f[1], ("ENG", "CYM"), 2), text_of(f[2], 100, 3)
    locality = text_of(f[3], 35, 4) if f[3] else ""
    town = text_of(f[4], 30, 5) if f[4] else ""
    return n, lang, description, locality, town, text_of(f[5], 30, 6)


def read_blpu(f):
    counted(f, 8)
    n, status = uprn(f[0], 1), code(f[1], ("1", "6", "8"), 2)
    easting, northing = number(f[2], 6, 0, 700_000, 3), number(f[3], 7, 0, 1_300_000, 4)
    parent = uprn(f[4], 5) if f[4] else ""
    postcode = text_of(f[5], 8, 6) if f[5] else ""
    start = day(f[6], 7)
    return n, status, easting, northing, parent, postcode, start, end_day(f[7], start, 8)


def read_xref(f):
    counted(f, 6)
    key, n, source, reference = label(f[0], 14, 1), uprn(f[1], 2), label(f[2], 6, 3), text_of(f[3], 50, 4)
    start = day(f[4], 5)
    return key, n, source, reference, start, end_day(f[5], start, 6)


def read_release(f):
    counted(f, 3)
    return uprn(f[0], 1), number(f[1], 4, 1, 9999, 2), number(f[2], 4, 1, 9999, 3)


def read_adoption(f):
    """The number, the custodian that released it, the hop, and the property as it is adopted."""
    counted(f, 10)
    return *read_release(f[:3]), read_blpu([f[0], *f[3:]])


def read_lpi(f):
    counted(f, 17)
    key, n, lang = label(f[0], 14, 1), uprn(f[1], 2), code(f[2], ("ENG", "CYM"), 3)
    status, street = code(f[3], ("1", "3", "6", "8"), 4), usrn(f[4], 5)
    secondary = None if f[5:10] == BLANK else object_of(f[5:10], 6)
    primary, start = object_of(f[10:15], 11), day(f[15], 16)
    return key, n, lang, status, street, secondary, primary, start, end_day(f[16], start, 17)


def ended(start, end):
    return start.isoformat(), end.isoformat() if end else ""


def object_fields(given):
    if given is None:
        return BLANK
    start, end, text = given
    return *(start or ("", "")), *(end or ("", "")), text


def plain_row(item):
    """The fields of an item that ends with its two dates."""
    return *item[:-2], *ended(*item[-2:])


def descriptor_row(item):
    return item


def lpi_row(item):
    key, n, lang, status, street, secondary, primary, start, end = item
    return key, n, lang, status, street, *object_fields(secondary), *object_fields(primary), *ended(start, end)


KINDS = {
    "11": (read_street, plain_row),
    "15": (read_descriptor, descriptor_row),
    "21": (read_blpu, plain_row),
    "23": (read_xref, plain_row),
    "24": (read_lpi, lpi_row),
}
PASSING = {"91": read_release, "92": read_adoption}  # by which a property passes between custodians
