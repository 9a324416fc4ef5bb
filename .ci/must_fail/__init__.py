"""Tries the must-fail edits of the repository.

    sources.py   the functions of Rattle sources, found by their lines
    edit.py      an edit: what it changes, and where the proof files of its function are
    copies.py    makes an edit in a folder with a copy of the crate
    said.py      what the prover says, and what that means for an edit
    check.py     a check of a crate over built libraries
    trying.py    tries the edits of a crate: at once, again, alone
    naming.py    writes into edits the goals at which they fail
    items.py     the items of a crate: functions with their contracts, types, definitions of specs/
    checksum.py  the checksum of an edit with what its refusal rests on
    ledger.py    .ci/refused, and which edits the gate tries
    tree.py      the crates and edits of the repository
    command.py   the command .ci/edits

Its tests: python3 -B -m unittest discover -s tests/edits
"""
