"""Address lines of the plain hub."""


def numbers_of(given):
    """The house numbers of an object, as 12A-14; None where it has none."""
    if given is None or given[0] is None:
        return None
    return "-".join(f"{n}{suffix}" for n, suffix in given[:2] if n) if given[1] else "%d%s" % given[0]


def line_of(lpi, descriptor, blpu):
    secondary, primary = lpi[5], lpi[6]
    _, _, description, locality, town, area = descriptor
    numbers = numbers_of(primary)
    street = f"{numbers} {description}" if numbers else description
    flat = [secondary[2] if secondary else "", numbers_of(secondary)]
    parts = [*flat, primary[2], street, locality, town, "" if area == town else area, blpu[5]]
    return ", ".join(part for part in parts if part)
