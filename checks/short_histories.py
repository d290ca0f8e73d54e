"""What clients of three custodians ask in four short histories, and all that a hub tells of them."""

from checks.stores import get, post
from checks.wanting import ASKED

STREET_101 = b"10,1,1001,1,2024-01-02\n11,I,1,101,1,2001-04-01,\n99,1\n"
HIGH_STREET = b"10,1,1001,2,2024-02-01\n15,I,1,101,ENG,High Street,,Arden,Arden\n99,1\n"
# It comes once more, which breaks rule 21.
STREET_101_AGAIN = b"10,1,1001,2,2024-02-01\n15,I,1,101,ENG,High Street,,Arden,Arden\n11,I,2,101,1,2001-04-01,\n99,2\n"
FLAT_2_HIGH_STREET = (
    b"10,1,1001,3,2024-03-01\n21,I,1,42,1,450000,250000,,AR1 2DN,2001-04-01,\n"
    b"24,I,2,L1,42,ENG,1,101,,,,,Flat 2,12,A,14,,,2001-04-01,\n99,2\n"
)
OLD_MILL = (
    b"10,1,1003,1,2024-01-02\n11,I,1,300,2,2010-05-01,\n"
    b'15,I,2,300,ENG,"Mill Lane, rear of",,Bay,Bay Area\n21,I,3,200000,6,0,0,,,2010-05-01,\n'
    b"24,I,4,Q1,200000,ENG,6,300,,,,,,,,,,The Old Mill,2010-05-01,\n23,I,5,X1,200000,TAX01,A/17,2010-05-01,\n99,5\n"
)
# The mill and its address are approved, its tax number goes, a part of it comes, and a tax number of the part comes and goes.
OLD_MILL_APPROVED = (
    b"10,1,1003,2,2024-04-02\n90,1002,1\n21,U,1,200000,1,0,0,,BY1 1AA,2010-05-01,\n"
    b"24,U,2,Q1,200000,ENG,1,300,,,,,,,,,,The Old Mill,2010-05-01,\n23,D,3,X1,200000,TAX01,A/17,2010-05-01,\n"
    b"21,I,4,200001,1,0,0,200000,BY1 1AA,2024-04-01,\n23,I,5,X2,200001,TAX01,A/18,2024-04-01,\n"
    b"23,D,6,X2,200001,TAX01,A/18,2024-04-01,\n99,6\n"
)
NUMBER_9_MILL_LANE = (
    b"10,1,1002,1,2024-03-01\n90,1001,1\n90,1003,1\n21,I,1,100002,1,455000,255000,,BY1 1AB,2020-01-01,\n"
    b"24,I,2,K2,100002,ENG,1,300,,,,,,9,,,,,2020-01-01,\n21,I,3,100003,1,455000,255000,100002,BY1 1AB,2020-01-01,\n"
    b"24,I,4,K3,100003,ENG,1,300,1,,,,Flat,9,,,,,2020-01-01,\n23,I,5,Y1,100002,TAX01,B/1,2020-01-01,\n"
    b"23,I,6,Y2,100003,TAX01,B/2,2020-01-01,\n99,6\n"
)
# Property 500 goes from 1001 to 1002, who gives it back; what 1002 takes once more breaks rule 42.
PROPERTY_500 = b"10,1,1001,1,2024-01-02\n21,I,1,500,1,450000,250000,,AR1 2DN,2020-01-01,\n23,I,2,X5,500,TAX01,A/500,2020-01-01,\n99,2\n"
GIVEN_UP = b"10,2,1001,2,2025-01-02\n23,D,1,X5,500,TAX01,A/500,2020-01-01,\n91,I,2,500,1002,1\n91,I,3,501,1003,1\n99,3\n"
TAKEN = b"10,2,1002,1,2025-01-03\n90,1001,2\n92,I,1,500,1001,1,6,450001,250001,,,2020-01-01,\n99,1\n"
GIVEN_BACK = b"10,2,1002,2,2025-02-01\n91,I,1,500,1001,2\n99,1\n"
TAKEN_ONCE_MORE = TAKEN.replace(b"10,2,1002,1", b"10,2,1002,3")
TAKEN_BACK = b"10,2,1001,3,2025-02-02\n90,1002,2\n92,I,1,500,1002,2,1,450000,250000,,AR1 2DN,2020-01-01,\n99,1\n"
# It is given up, and a number that never stood anywhere as well, by a file that breaks rule 22 at its end: nothing of it stays.
GIVEN_UP_IN_VAIN = b"10,2,1001,4,2025-03-01\n91,I,1,500,1003,3\n91,I,2,502,1003,1\n11,U,3,101,1,2001-04-01,\n99,3\n"

HISTORIES = {
    "a file waits for a neighbour's": ASKED,
    "a rejected file fills a gap": (
        post(1001, 1, STREET_101),
        post(1001, 3, FLAT_2_HIGH_STREET),
        post(1001, 2, STREET_101_AGAIN),
        post(1001, 3, FLAT_2_HIGH_STREET),
        post(1001, 2, HIGH_STREET),
        get("/custodians/1001"),
    ),
    "items of all kinds": (
        post(1003, 1, OLD_MILL),
        post(1002, 1, NUMBER_9_MILL_LANE),
        post(1003, 2, OLD_MILL_APPROVED),
        get("/extract/1003/1"),
        post(1001, 1, STREET_101),
        get("/custodians/1003/volumes/2"),
        get("/uprn/100003"),
        get("/uprn/200000"),
        post(1001, 2, HIGH_STREET),
        post(1001, 3, FLAT_2_HIGH_STREET),
        get("/uprn/42"),
        get("/extract/1002/1"),
        get("/closed"),
    ),
    "a property passes on and back": (
        post(1002, 1, TAKEN),
        post(1001, 1, PROPERTY_500),
        get("/uprn/500"),
        post(1001, 2, GIVEN_UP),
        get("/uprn/500"),
        post(1002, 2, GIVEN_BACK),
        get("/uprn/500"),
        post(1002, 3, TAKEN_ONCE_MORE),
        post(1001, 3, TAKEN_BACK),
        post(1001, 4, GIVEN_UP_IN_VAIN),
        get("/uprn/500"),
        get("/extract/1001/4"),
    ),
}


def outcome_of(file: bytes) -> bytes:
    """The question what became of a file that is sent by this request."""
    return get(file.split(b" ", 2)[1].decode())


VOLUMES = [(code, volume) for code in (1001, 1002, 1003) for volume in range(1, 5)]
QUESTIONS = (
    *(get(f"/custodians/{code}") for code in (1001, 1002, 1003)),
    *(get(f"/custodians/{code}/volumes/{volume}") for code, volume in VOLUMES),
    *(get(f"/extract/{code}/{volume}") for code, volume in VOLUMES),
    *(get(f"/uprn/{uprn}") for uprn in (42, 500, 100001, 100002, 100003, 200000, 200001)),
    get("/closed"),
)
