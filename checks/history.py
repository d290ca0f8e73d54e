"""A history of three custodians, and what is asked about it."""

from checks.stores import get, post


def file_of(code: int, volume: int, *lines: str) -> bytes:
    """A change file of these lines, of which those that aren't basis lines are changes."""
    changes = sum(1 for line in lines if not line.startswith("90,"))
    return "\n".join((f"10,1,{code},{volume},2024-01-02", *lines, f"99,{changes}", "")).encode()


# A history with items of all kinds, rows that are gone, a key that is used alone, and files of each outcome.
FILES = {
    (1001, 1): ("11,I,1,150,1,1990-01-01,", "15,I,2,150,ENG,County Road,,Arden,Arden", "11,I,3,151,2,1990-01-01,"),
    (1001, 2): (
        "21,I,1,42,1,450000,250000,,AR1 2DN,2001-04-01,",
        "21,I,2,43,1,450000,250000,42,,2001-04-01,",
        "23,I,3,X1,42,TAX01,A/17,2001-04-01,",
        "24,I,4,L1,42,ENG,1,150,,,,,Flat 2,12,A,14,,,2001-04-01,",
    ),
    (1001, 3): ("11,U,1,150,1,1990-01-01,2024-04-30",),
    (1001, 4): (
        "23,D,1,X1,42,TAX01,A/17,2001-04-01,",
        "24,U,2,L1,42,ENG,8,150,,,,,Flat 2,12,A,14,,,2001-04-01,2024-04-01",
        "24,I,3,L2,42,ENG,1,150,,,,,,,,,,The Old Mill,2024-04-01,",
        "24,I,4,L3,43,ENG,6,150,,,,,,7,,,,,2024-04-01,",
        "24,D,5,L3,43,ENG,6,150,,,,,,7,,,,,2024-04-01,",
    ),
    (1001, 6): (),
    (1002, 1): ("90,1001,1", "21,I,1,100001,1,455000,255000,,,2020-01-01,", "24,I,2,K1,100001,ENG,1,150,,,,,,7,,,,,2020-01-01,"),
    (1002, 2): ("90,1003,5",),
    (1003, 1): ("11,I,1,300,2,2010-05-01,", '15,I,2,300,CYM,"Mill Lane, ""rear"" of",,Bay,Bay Area'),
    (1003, 2): ("21,I,1,42,1,0,0,,,2010-05-01,",),
}
HISTORY = b"".join(post(code, volume, file_of(code, volume, *lines)) for (code, volume), lines in FILES.items())
REACHED = {1001: 4, 1002: 1, 1003: 2}
EXTRACTS = [(code, volume) for code, reached in REACHED.items() for volume in range(1, reached + 1)]

QUESTIONS = b"".join(
    (
        *(get(f"/custodians/{code}/volumes/{volume}") for code, volume in FILES),
        *(get(f"/extract/{code}/{volume}") for code, volume in EXTRACTS),
        *(get(f"/custodians/{code}") for code in REACHED),
        *(get(f"/uprn/{uprn}") for uprn in (42, 43, 44, 100001)),
        get("/closed"),
    )
)

# A missing volume that is applied, and then the empty file behind it.
FILLING = post(1001, 5, file_of(1001, 5, "11,I,1,152,1,2024-04-30,"))

# What comes afterwards: a repeat, another file in place of one, the missing volume, and a key that was used.
LATER = b"".join(
    (
        post(1001, 3, file_of(1001, 3, *FILES[1001, 3])),
        post(1001, 2, b"x"),
        post(1001, 5, file_of(1001, 5, "24,I,1,L3,43,ENG,6,150,,,,,,7,,,,,2024-04-01,")),
        post(1001, 7, file_of(1001, 7, "11,U,1,151,2,1990-01-01,2024-04-30", "21,D,2,43,1,450000,250000,42,,2001-04-01,")),
        post(1001, 8, file_of(1001, 8, "11,U,1,151,2,1990-01-01,2024-04-30")),
        get("/extract/1001/8"),
    )
)
