"""mg-collect: mail decoded. Worked messages, and the odd messages that Debian's packages ship, whose words are those that
Python's own email package finds under its newest policy."""

import email
import email.message
import email.policy
import glob
import mailbox
import os
import random
import re
import subprocess

from collecting import Collect, row
from transcripts import fresh_folder, tools

# Odd messages that packages of Debian ship: a pattern of their names, how many there are at least, and the package.
CORPORA = [
    ("/usr/lib/python3.11/test/test_email/data/msg_*.txt", 40, "libpython3.11-testsuite"),
    ("/usr/share/gocode/src/github.com/jhillyerd/enmime/testdata/*/*.raw", 60, "golang-github-jhillyerd-enmime-dev"),
]
ASCII_FORMS = str.maketrans({"’": "'", "‘": "'", "“": '"', "”": '"', "–": "-", "—": "--", "…": "...", "\u00a0": " "})

PNG = b"Content-Type: image/png; name*=utf-8''Hafen%20K%C3%B6ln.png\nContent-Transfer-Encoding: base64\n\niVBORw0KGgo=\n"
# Messages, and what is made of each.
WORKED = [
    ("fields", b"Received: by x\nsubject: =?utf-8?q?accentu=C3=A9?= =?iso-8859-1?b?6Q==?= end\nTo: a@b,\n\tc@d\nX-Y: z\nFROM: =?x-none?q?odd?=\n\nbody\n",
     "From: odd\nTo: a@b, c@d\nSubject: accentuéé end\n\nbody\n"),
    ("all fields", b"Message-ID: <1@x>\nSubject: s\nDate: Tue, 7 Mar 2023 11:02:00 +0100\nCc: c\nTo: t\nFrom: f\n\n",
     "From: f\nTo: t\nCc: c\nDate: Tue, 7 Mar 2023 11:02:00 +0100\nSubject: s\nMessage-ID: <1@x>\n\n"),
    ("an encoded word within quotes, and none", b'From: "=?utf-8?Q?Mara_L=2E?=" <m@x>\nSubject: a =?b =?utf-8?b?a?= c\n\n',
     'From: "Mara L." <m@x>\nSubject: a =?b =?utf-8?b?a?= c\n\n'),
    ("a letter in two encoded words", b"Subject: =?utf-8?b?w6nD?= =?utf-8?b?qQ==?=\n\n", "Subject: éé\n\n"),
    ("no fields", b"\nbody\r\nlines\r\n", "body\nlines\n"), ("nothing", b"", ""), ("no body", b"Subject: s\n", "Subject: s\n\n"),
    ("bytes of UTF-8 without a charset", "Subject: Köln\n\nhé\n".encode(), "Subject: Köln\n\nhé\n"),
    ("quoted-printable", b"Content-Type: text/plain; charset=iso-8859-1\nContent-Transfer-Encoding: quoted-printable\n\nsch=F6n=\ner =93x=94\n", 'schöner "x"\n'),
    ("base64 of another charset", b"Content-Type: text/plain; charset=\"KOI8-R\"\nContent-Transfer-Encoding: BASE64\n\n8NLJ18XU\n", "Привет\n"),
    ("UTF-16", b"Content-Type: text/plain; charset=utf-16\nContent-Transfer-Encoding: base64\n\n//5oAGkACgA=\n", "hi\n"),
    ("Japanese", b"Content-Type: text/plain; charset=iso-2022-jp\n\n\x1b$B4A;z\x1b(B\n", "漢字\n"),
    ("signs", "\n“a”—‘b’ – c…\u00a0d\u2009e don’t so\u00adft\n".encode(), '"a"--\'b\' - c... d e don\'t soft\n'),
    ("controls", b"Content-Transfer-Encoding: quoted-printable\n\na=02b=00c\n", "a b c\n"),
    ("HTML", b"Content-Type: text/html\n\n<html><head><style>p { x }</style><title>T</title></head><body><script>alert('no')</script>"
     b"<h1>One</h1><p>two&nbsp;<b>th</b>ree<br>four &eacute; &lt;</p><table><tr><td>a</td><td>b</td></tr></table>end</body></html>\n",
     "T\nOne\ntwo three\nfour é <\na b\nend\n"),
    ("HTML with its own charset", b"Content-Type: text/html\n\n<meta http-equiv=Content-Type content='text/html; charset=windows-1250'><p>\xe8\xe1p</p>", "čáp\n"),
    ("an alternative", b"Content-Type: multipart/alternative; boundary=B\n\npre\n--B\nContent-Type: text/plain; charset=utf-8\n\nplain\n--B\n"
     b"Content-Type: text/html\n\n<p>rich</p>\n--B--\n", "plain\n"),
    ("an alternative whose plain text is empty", b"Content-Type: multipart/alternative; boundary=B\n\n--B\n\n \n--B\nContent-Type: text/html\n\n<p>rich</p>\n--B--\n", "rich\n"),
    ("attachments", b"Content-Type: multipart/mixed; boundary=B\n\n--B\n\nsee there\n\n--B\n" + PNG + b"--B\nContent-Type: text/plain\n"
     b"Content-Disposition: attachment; filename=\"=?utf-8?q?n=C3=B6te=2Etxt?=\"\n\nfour\n--B\nContent-Type: application/x-y\n\n12345\n--B--\n",
     "see there\n[attachment: image/png, Hafen Köln.png, 8 bytes]\n[attachment: text/plain, nöte.txt, 4 bytes]\n[attachment: application/x-y, 5 bytes]\n"),
    ("what is attached to the form that is not read", b"Content-Type: multipart/alternative; boundary=B\n\n--B\n\nplain\n--B\nContent-Type: multipart/related; boundary=C\n\n"
     b"--C\nContent-Type: text/html\n\nrich\n--C\n" + PNG + b"--C--\n--B--\n", "plain\n[attachment: image/png, Hafen Köln.png, 8 bytes]\n"),
    ("a message within", b"Subject: outer\nContent-Type: message/rfc822\n\nSubject: =?utf-8?q?inn=C3=A9r?=\nFrom: x\nContent-Type: text/plain; charset=latin1\n\nh\xe9\n",
     "Subject: outer\n\nFrom: x\nSubject: innér\n\nhé\n"),
    ("a report", b"Content-Type: multipart/report; boundary=B\n\n--B\n\nnot there\n--B\nContent-Type: message/delivery-status\n\nReporting-MTA: dns; x\n\nAction: failed\n\n--B--\n",
     "not there\nReporting-MTA: dns; x\nAction: failed\n"),
    ("no end", b"Content-Type: multipart/mixed; boundary=B\n\n--B\n\none\n--B\n\ntwo", "one\ntwo\n"),
    ("no boundary", b"Content-Type: multipart/mixed\n\n--B\n\none\n", "--B\n\none\n"),
]
# Messages that are no text in their charset, which is kept, or that no library reads.
UNDECODED = [
    (b"\nno UTF-8 \xe9\n", b"no UTF-8 \xe9\n"), (b"Content-Type: text/plain; charset=fakescii\n\n\xff\xe9 \xe2\x80\n", b"\xff\xe9 \xe2\x80\n"),
    (b"Content-Type: text/plain; charset=utf-8\n\ngood \xc3\xa9, bad \xe9\n", b"good \xc3\xa9, bad \xe9\n"),
    (b"Content-Type: text/plain; charset=iso-2022-kr\n\n\xe9 8 bits\n", b"\xe9 8 bits\n"),
]


def mbox_of(messages):
    """Messages as an mbox."""
    return b"".join(b"From a@b.example Thu Jan  1 00:00:00 1970\n" + message + b"\n\n" * message[-1:].count(b"\n") for message in messages)


def mh(case, name, messages):
    for number, message in enumerate(messages, 1):
        case.file(f"{name}/{number}", message)


def worked(suite):
    """Each message becomes what it says."""
    with fresh_folder(suite) as folder:
        case = Collect(suite, folder)
        mh(case, "mail", [message for _, message, _ in WORKED])
        status, out, err = case.run("maildir", "new", "mail")
        case.check("worked messages", (status, out, err), (0, b"documents %d\nreplaced 2\n" % len(WORKED), b""))
        documents = case.content("new").split(b"\x02")
        for (name, _, wanted), document in zip(WORKED, documents):
            case.check(f"a message with {name}", document.decode(), wanted)
        for name in ["new", "new.table"]:
            os.remove(case.path(name))
        mh(case, "odd", [message for message, _ in UNDECODED])
        rows = b"".join(row(n, b"odd/%d" % n, 0, len(message)) for n, (message, _) in enumerate(UNDECODED, 1))
        case.made("what is no text", [text for _, text in UNDECODED], rows, b"documents 4\nundecoded 4\n", "maildir", "new", "odd")
        case.file("odd/5", b"Content-Transfer-Encoding: quoted-printable\n\na=02b=00c\n")
        rows += row(5, b"odd/5", 0, 55)
        documents = [*[text for _, text in UNDECODED], b"a_b_c\n"]
        case.made("controls with a choice", documents, rows, b"documents 5\nreplaced 2\nundecoded 4\n", "-r_", "maildir", "new", "odd")


def fields(suite):
    """What the table tells of a message."""
    message = b"From: =?utf-8?q?J=C3=B6rg?=\n <j@x>\nSubject: a\tb\x01c =?utf-8?q?=E2=80=9Cd=E2=80=9D?=\nMessage-ID: junk <id@x> more\nDate: %s\n\n"
    dates = [
        (b"Tue, 7 Mar 2023 11:02:03 +0100", b"2023-03-07T11:02:03+01:00"), (b"7 Mar 2023 11:02 GMT", b"2023-03-07T11:02:00+00:00"),
        (b"Tue, 7 Mar 2023 11:02:03", b"2023-03-07T11:02:03"), (b"yesterday", b""), (b"", b""), (b"Tue, 77 Mar 2023 11:02:03 +0100", b""),
        (b"Tue, 7 Mar 2023 11:02:03 +999999", b""), (b"Mon, 20 Nov 95 19:12:08 -0500 (EST)", b"1995-11-20T19:12:08-05:00"),
    ]
    with fresh_folder(suite) as folder:
        case = Collect(suite, folder)
        mh(case, "mail", [message % date for date, _ in dates])
        case.run("maildir", "new", "mail")
        wanted = b"".join(
            row(n, b"mail/%d" % n, 0, len(message % date), b"<id@x>", iso, "Jörg <j@x>".encode(), "a b c “d”".encode())
            for n, (date, iso) in enumerate(dates, 1)
        )
        case.check("fields of the table", case.content("new.table").splitlines(), wanted.splitlines())


def words_of(text):
    return re.findall(r"\w+", text.translate(ASCII_FORMS))


def wanted_words(message):
    """The words of the subject and of each text that must be read, by Python's newest policy; none where that fails."""
    parsed = email.message_from_bytes(message, policy=email.policy.default)
    words = words_of(str(parsed["subject"] or ""))
    for part in parsed.walk():
        if part.is_multipart() or part.get_content_type() != "text/plain" or part.get_content_disposition():
            continue
        try:
            text = part.get_content()
        except LookupError:
            continue
        words += words_of(text) if "\ufffd" not in text else []
    return set(words)


def real(suite):
    """Every message of a corpus is a document, from a folder and from an mbox, with its words."""
    for pattern, fewest, package in CORPORA:
        paths = sorted(glob.glob(pattern))
        suite.check(f"Debian's package {package} is installed", len(paths) >= fewest, True)
        with fresh_folder(suite) as folder:
            case = Collect(suite, folder)
            messages = []
            box = mailbox.mbox(case.path("box"), create=True)
            for path in paths:
                with open(path, "rb") as file:
                    messages.append(file.read())
                box.add(mailbox.mboxMessage(email.message_from_bytes(messages[-1])))
            box.close()
            mh(case, "mail", messages)
            for words in [["maildir", "new", "mail"], ["mbox", "new", "box"]]:
                status, out, err = case.run(*words)
                case.check(f"{package} by {words[0]}", (status, out.split(b"\n")[0], err), (0, b"documents %d" % len(paths), b""))
                documents = case.content("new").split(b"\x02")[:-1]
                case.check(f"{package}: documents", len(documents), len(paths))
            for path, message, document in zip(paths, messages, case_documents(case)):
                missing = wanted_words(message) - set(re.findall(r"\w+", document.decode(errors="replace")))
                case.check(f"words of {path}", missing, set())
            answers(suite, case, folder)


def case_documents(case):
    case.run("maildir", "new", "mail")
    return case.content("new").split(b"\x02")[:-1]


def answers(suite, case, folder):
    """A message with an encoded subject and text among those of a corpus is found by its words."""
    case.file("mail/900", b"Subject: =?utf-8?q?accentu=C3=A9?=\nContent-Transfer-Encoding: base64\n\ndGhlIGR1Y2tiaWxs\n")
    number = len(case_documents(case))
    for words in ["accentué", "duckbill"]:
        out = subprocess.run([tools(suite) / "mg", "scan", "new"], cwd=folder, input=words.encode(), capture_output=True).stdout
        case.check(f"{words} is found", out, b"%d\n= 1\n" % number)


def generated(bytes_wanted, share=0.15):
    """Messages of made words, a share of them with 2 to 200 KB of random bytes in base64, of so many bytes in all."""
    draws = random.Random(60)
    vocabulary = ["".join(draws.choices("abcdefghiklmnoprstuw", k=draws.randint(2, 9))) for _ in range(4000)]
    text = lambda lines: "\n".join(" ".join(draws.choices(vocabulary, k=12)) for _ in range(lines)) + "\n"
    number = size = 0
    while size < bytes_wanted:
        number += 1
        message = email.message.EmailMessage()
        message["From"] = f"{draws.choice(vocabulary)}@harbour.example"
        message["Subject"] = f"{draws.choice(vocabulary)} number{number}"
        message.set_content(text(draws.randint(3, 40)))
        if draws.random() < share:
            data = draws.randbytes(draws.randint(2_000, 200_000))
            message.add_attachment(data, maintype="application", subtype="pdf", filename=f"plan{number}.pdf")
        data = message.as_bytes()
        size += len(data)
        yield data


def attachments(suite, bytes_wanted, most_share):
    """A mailbox with attachments is built, and its set is small."""
    with fresh_folder(suite) as folder:
        case = Collect(suite, folder)
        with open(case.path("box"), "wb") as file:
            count = 0
            for message in generated(bytes_wanted):
                file.write(b"From a@b.example Thu Jan  1 00:00:00 1970\n" + message + b"\n")
                count += 1
            size = file.tell()
        case.check("a mailbox with attachments", case.run("mbox", "new", "box"), (0, b"documents %d\n" % count, b""))
        run = subprocess.run([tools(suite) / "mg", "build", "new", "set"], cwd=folder, capture_output=True)
        case.check("is built", (run.returncode, run.stdout.split(b"\n")[0]), (0, b"documents %d" % count))
        parts = [entry.stat().st_size for entry in os.scandir(folder) if entry.name.startswith("set.")]
        case.check(f"the set of {size} bytes of mail is below {most_share:.0%}", 0 < sum(parts) < most_share * size, True)
        out = subprocess.run([tools(suite) / "mg", "query", "set"], cwd=folder, input=b"number%d\npdf & plan%d" % (count, count), capture_output=True)
        case.check("its last message is found", out.stdout.split(b"\n")[0], b"%d" % count)


def small_mailbox(suite):
    attachments(suite, 1_500_000, 0.3)


def large_mailbox(suite):
    attachments(suite, 129_000_000, 0.1)


PARTS = [worked, fields, real, small_mailbox]
SLOW = [large_mailbox]
