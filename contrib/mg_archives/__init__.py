"""What stands before and around mg: collections from mail and files, and archives that grow.

The programs `mg-collect`, `mg-archive` and `mg-shards` are launchers of a few lines. Each finds this package beside
itself, or in `lib/mg` of the prefix that it is installed in:

    #!/usr/bin/python3 -IB
    import os, sys

    here = os.path.dirname(os.path.realpath(__file__))
    sys.path[:0] = [here, os.path.join(os.path.dirname(here), "lib", "mg")]
    from mg_archives.collect import main
    sys.exit(main())

Python's standard library is all that is needed. Paths are bytes wherever they may come from a file or a table.

What other programs of the package call:

    from mg_archives.choices import Choices, Tally
    from mg_archives.documents import read_documents
    from mg_archives.writing import Output, write_documents
    from mg_archives.originals import read_original
    from mg_archives.tables import Row, read_row, read_table
    from mg_archives.progress import Progress
    from mg_archives.refusals import Refusal

    choices = Choices(raw=False, replace=None, skip=False, filter=None, text=False)
    tally = Tally()
    pairs = read_documents("mbox", [b"2023.mbox.gz", b"-"], choices, tally, leave=[b"set folder"])
    new = ((data, row) for data, row in pairs if row.message_id not in known)
    with Output(b"COLLECTION", b"COLLECTION.table") as output:
        write_documents(new, output, tally, first=1, progress=Progress(tally))
        output.finish()

`read_documents(kind, names, choices, tally, leave)` yields a pair for each document of `mbox`, `maildir`, `folder` or
`files`: its bytes, without the control-B that closes it and with none within, and its `Row`, whose number is still 0.
`leave` are files and folders that a walk through folders passes by. What is odd is left out and told in
`tally.odd`, pairs of a name and a reason; `tally.undecoded`, `tally.replaced` and `tally.made` count the rest.

`write_documents(pairs, output, tally, first, progress)` numbers the rows from `first`, and writes documents and rows
into files of a work folder beside the collection; it counts `tally.documents` and `tally.bytes`. `output.finish()` moves
both into place; an `Output` that is left without it removes its work folder, and nothing changed.

`read_original(row)` answers the bytes of a document in its source, by path, offset and length; a message of a Maildir
whose file was renamed since is found by the unique part of its name, or by its Message-ID, and so is one in an mbox that
was written anew.

Each of these raises `Refusal`, which has the status to end with and a line of text.
"""
