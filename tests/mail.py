#!/usr/bin/env python3
"""Tests of what an import makes of mail: archives, headers, the texts of parts, and the words for fields.

usage: tests/mail.py [--program PATH]

Without --program the tests of the real program are left out, and that is said.
"""

import base64
import gzip
import itertools
import lzma
import mailbox
import os
from unittest import mock

# It lets the others find the client of the checkout.
from support import run_tests  # isort: skip

from buncocedar import LINE_LIMIT, Index
from buncocedar.ids import with_names
from buncocedar.imports import archives, fields, mail, messages, stamps
from buncocedar.imports.cms import signed_content
from buncocedar.imports.header import parted
from buncocedar.imports.inner import inner_words
from buncocedar.imports.parts import parts_of, spaced
from buncocedar.imports.stamps import Known, name_of
from buncocedar.tools import documents
from cases import LETTER, Case, processor_time

PROGRAM = None


class Mail(Case):
    def test_split(self):
        for archive, wanted in [
            (b"", []),
            (b"From a Mon Jan 1 00:00\nA: b\n\nc\n", [b"A: b\n\nc\n"]),
            (b"From a Mon Jan 1 00:00\nA: b\n\nFrom here on\nit is text\n", [b"A: b\n\nFrom here on\nit is text\n"]),
            (b"From a\nTo: b\n\nc\nFrom d\nTo: f\n", [b"To: b\n\nc\nFrom d\nTo: f\n"]),
            (b"From a\nTo: b\n\nc\n\nFrom d\nX-E: f\n\ng", [b"To: b\n\nc\n\n", b"X-E: f\n\ng"]),
            (b"From a\r\nTo: b\r\n\r\nc\r\n\r\nFrom d\r\nTo: f\r\n", [b"To: b\r\n\r\nc\r\n\r\n", b"To: f\r\n"]),
            (b"A: b\n\nc\n", [b"A: b\n\nc\n"]),
            (b"junk\n\nFrom a\nsubject : b\n", [b"junk\n\n", b"subject : b\n"]),
            # Paragraphs of a text are no beginnings.
            (b"A: b\n\nFrom Berlin we go to\nParis: the city\n", [b"A: b\n\nFrom Berlin we go to\nParis: the city\n"]),
            (b"A: b\n\nFrom the page\nhttp://x/y\n", [b"A: b\n\nFrom the page\nhttp://x/y\n"]),
            (b"A: b\n\nFrom now on, Monday at 10:30\n\n", [b"A: b\n\nFrom now on, Monday at 10:30\n\n"]),
            (b"A: b\n\nFrom now on each Mon at 10:30\n", [b"A: b\n\nFrom now on each Mon at 10:30\n"]),
            (b"A: b\n\nFrom a Mon, 1 Jan 2024 00:00:00 +0000\nC: d\n", [b"A: b\n\n", b"C: d\n"]),
            # Without an empty line before it, a beginning has a date and a field.
            (b"From a Mon Jan 1 00:00\nTo: b\n\nc\nFrom d Mon Jan 1 00:00\nTo: f\n\ng\n", [b"To: b\n\nc\n", b"To: f\n\ng\n"]),
            (b"A: b\n\nc\nFrom a Mon Jan 1 00:00\nd\n", [b"A: b\n\nc\nFrom a Mon Jan 1 00:00\nd\n"]),
            (b"From a Mon Jan 1 00:00\n\0broken\nA: b\n", [b"\0broken\nA: b\n"]),
        ]:
            found = list(archives.split(archive.splitlines(True)))
            self.assertEqual([raw for _, raw in found], wanted, archive)
            for begin, raw in found:
                self.assertEqual(archive[begin : begin + len(raw)], raw)

    def message(self, head, body):
        line_end = b"\r\n" if b"\r\n" in head else b"\n"
        return self.text(head + 2 * line_end + body)

    def text(self, raw, **options):
        return messages.document_of(archives.Entry("", raw), **options).load()

    def test_messages(self):
        html = b"Subject: h\nContent-Type: text/html"
        for head, body, title, text in [
            (b"broken\nSubject: a\nline\nContent-Type: text/html", b"<p>b", "a", "b"),
            (b"Subject: plain", b"text", "plain", "text"),
            (b"Subject: folded\n  line", b"", "folded line", ""),
            (b"Subject: =?utf-8?q?caf=C3=A9?= =?iso-8859-1?q?_stra=DFe?=", b"", "caf\u00e9 stra\u00dfe", ""),
            (b"Subject: 8-bit caf\xc3\xa9", b"caf\xc3\xa9", "8-bit caf\u00e9", "caf\u00e9"),
            (b"Subject: 8-bit stra\xdfe", b"stra\xdfe", "8-bit stra\u00dfe", "stra\u00dfe"),
            (b"Subject: =?no-such?q?a=FF?= b", b"", "a\u00ff b", ""),
            (b"Subject: =?utf-8?b?a?=", b"", "=?utf-8?b?a?=", ""),
            (b"Subject: caf\xc3\xa9 =?utf-8?q?=C3=A9?=", b"", "caf\u00e9 \u00e9", ""),
            (b"Subject: =?utf-8?q?=C3=A9?= \\ud800 C:\\users", b"", "\u00e9 \\ud800 C:\\users", ""),
            (b"Subject: =?utf-8?q?caf=C3?=\n =?UTF-8?q?=A9?= =?utf-8?b?YQ?=", b"", "caf\u00e9a", ""),
            (b"Subject: =?utf-8?b?a?=, =?utf-8?q?b?=  c =?utf-8*en?q?what??= =??q?d?=", b"", "=?utf-8?b?a?=, b  c what?d", ""),
            (b"Subject: =?unicode_escape?q?a=5Cud800?= =?x?q", b"", "a\ufffd =?x?q", ""),
            (b"Subject: x\nContent-Type: text/plain; charset=unicode_escape", b"a \\ud800", "x", "a \ufffd"),
            (b"Subject: x\nContent-Type: text/plain; charset=iso646-us", b"caf\xc3\xa9", "x", "caf\u00e9"),
            (b"X-Subject: x\nbroken line\n\0", b"text", "", "text"),
            (b"Subject: x\nContent-Type: text/plain; charset=no-such", b"caf\xc3\xa9", "x", "caf\u00e9"),
            (b"Subject: x\nContent-Type: text/plain; charset=hex", b"abc", "x", "abc"),
            (b'Subject: x\nContent-Type: text/plain; charset="a\0b"', b"abc", "x", "abc"),
            (b"Subject: x\nContent-Type: nonsense", b"abc", "x", "abc"),
            (b"Subject: x\nContent-Type: text/plain\nContent-Transfer-Encoding: base64", b"Y2Fmw6k", "x", "caf\u00e9"),
            (b"Subject: x\nContent-Type: multipart/mixed", b"no parts", "x", "no parts"),
            (html, b"<p>red <b>fox</b><script>no</script> &amp; dog", "h", "red fox & dog"),
            (html, b"<![unknown[ x ]]> fox", "h", "fox"),
            (html, b"<b>H</b>ello wo<span>rld</span><o:p></o:p>s<br>a<td>b</td>c<P>d", "h", "Hello worlds a b c d"),
            (html, b"<style><!-- p > a {} --></style><!--[if !mso]><!-->red<!--<![endif]--> <!-->fox<!-- no > dog", "h", "red fox dog"),
            (html, b"a < b <!DOCTYPE x>c<?xml y?>d &lt;e&gt; &#" + b"9" * 5000 + b"; f <a href", "h", "a < b cd <e> \ufffd f <a href"),
            (html, b"<style><!-- p{} </style><body>hello<!--[if mso]>x<![endif]--> fox<script>if(a<!b){c()}</SCRIPT> dog", "h", "hello fox dog"),
            (html, b"<meta charset='windows-1251'>\xec\xe8\xf0", "h", "\u043c\u0438\u0440"),
            (html, b"<META content=\"text/html; charset = koi8-r\">\xcd\xc9\xd2", "h", "\u043c\u0438\u0440"),
            (html + b"; charset=us-ascii", b"<meta charset=koi8-r>\xcd\xc9\xd2", "h", "\u043c\u0438\u0440"),
            (html + b"; charset=utf-8", b"<meta charset=koi8-r>\xc3\xa9", "h", "\u00e9"),
            (html, b"<meta charset=utf-16>\xc3\xa9", "h", "\u00e9"),
            (b"Subject: x", b"<meta charset=koi8-r>\xe9", "x", "<meta charset=koi8-r>\u00e9"),
            (b"Subject: a\0b", b"c\0d", "a\0b", "c\0d"),
        ]:
            found = self.message(head, body)
            crlf = self.message(head.replace(b"\n", b"\r\n"), body)
            self.assertEqual((crlf.title, crlf.body), (found.title, found.body), head)
            self.assertEqual((found.title, spaced(found.body)), (title, text), head)

    def test_no_message_takes_long(self):
        many = 1 << 20
        for raw in (
            b"Message-ID: <a" + b" " * many + b"b>\n\nx",
            b"Subject: x" + b"\n y" * many + b"\n\nx",
            b"Subject: " + b"=?a?q?x" * many + b"\n\nx",
            b"Subject: " + b"=?utf-8?q?a?= " * (many // 16) + b"\n\nx",
            b"Content-Type: application/pkcs7-mime\n\n" + b"\x30\x80" * many,
            b"Date: 1 Jan " + b"9" * many + b"\n\nx",
            b"Subject: x\n\nFrom" + b" Mon Jan" * many + b"\n\nx",
            b"Content-Type: text/plain; charset=punycode\n\n" + b"a" * many + b"-" + b"b" * many,
            b"Content-Type: text/plain; x=\"" + b";" * many + b"\n\nx",
            b"Content-Type: multipart/mixed; boundary=b\n\n" + b"--b \n" * (many // 16) + b"--b" + b" " * many,
            *(b"Content-Type: text/html\n\n" + tag * (many // 4) for tag in (b"<a ", b"<!--", b"<!-- >", b"<![if >", b"<a b='>", b"</a ", b"<")),
            b"Content-Type: text/html\n\n&#" + b"9" * many + b";<script>" + b"</script" * many + b">",
        ):
            with self.subTest(raw=raw[:40]), processor_time(60):
                for _, part in archives.split(raw.splitlines(True)):
                    self.assertNotEqual(parts_of("a", self.text(part), False), [])

    def test_parts(self):
        def several(kind, *pieces, said=b""):
            boundary = b"%d" % len(b"".join(pieces))
            lines = b"".join(b"--%s\n%s\n" % (boundary, piece) for piece in pieces)
            return b"Content-Type: multipart/%s; boundary=%s%s\n\nno\n%s--%s--\nno\n" % (kind, boundary, said, lines, boundary)

        plain, html = b"Content-Type: text/plain\n\nfirst", b"Content-Type: text/html\n\n<p>fox"
        blank, footer = b"Content-Type: text/plain; charset=utf-8\n\n \xc2\xa0\n", b"\nfooter"
        file = b"Content-Disposition: attachment; filename=a.txt\n\nattached"
        image = b"Content-Type: image/png\n\nno"
        calendar = b"Content-Type: text/calendar\n\nBEGIN:VCALENDAR"
        inner = b"Content-Type: message/rfc822; name=b.eml\n\nSubject: no\n\ninner"
        odd_name = b"Content-Type: text/csv\nContent-Disposition: attachment; filename*=utf-8''a.csv; filename*0=b.csv\n\n1,2"
        no_name = b"Content-Type: text/csv\nContent-Disposition: attachment; filename*=\"a\0b''c.csv\"\n\n1,2"
        # What is odd in one part hides no other one, nor its own text.
        for raw, text, head in [
            (several(b"mixed", plain, html, file, image, b"\nlast"), "first fox attached last", "Attachment: a.txt"),
            (several(b"alternative", plain, html), "first", ""),
            (several(b"alternative", blank, html), "fox", ""),
            (several(b"alternative", html), "fox", ""),
            (several(b"alternative", plain, several(b"related", html, image)), "first", ""),
            (several(b"alternative", several(b"mixed", blank, plain), several(b"alternative", html)), "first", ""),
            (several(b"alternative", plain, html, calendar), "first BEGIN: VCALENDAR", ""),
            (several(b"alternative", plain, b"Content-Type: text/x-amp-html\n\n<p>no", html), "first", ""),
            (several(b"mixed", html, footer), "fox footer", ""),
            (several(b"mixed", several(b"alternative", plain, html), several(b"alternative", blank, html)), "first fox", ""),
            (several(b"mixed", html, calendar), "fox BEGIN: VCALENDAR", ""),
            (several(b"mixed", html, inner), "fox Subject: no inner", "Attachment: b.eml"),
            (several(b"digest", b"\nSubject: a\n\none", b"\nFrom a\nSubject: b\n\ntwo"), "Subject: a one Subject: b two", ""),
            (b"Content-Type: text/plain; name=report.txt\n\nreport", "report", "Attachment: report.txt"),
            (several(b"mixed", b"no header\n\nat all", footer), "no header at all footer", ""),
            (several(b"mixed", b"\nFrom here\non", b"no", said=b"; type=\"a;b\""), "From here on no", ""),
            (several(b"mixed", plain, odd_name), "first 1,2", ""),
            (several(b"mixed", plain, no_name), "first 1,2", ""),
            (several(b"mixed", plain, b"Content-Type: text/plain; charset*=a; charset*0=b\n\nlast"), "first last", ""),
            (several(b"mixed", plain, b"Content-Transfer-Encoding: uuencode\n\nbegin 644 a\n#\xff\n"), "first begin 644 a #\u00ff", ""),
            (b"Content-Type: multipart/mixed; boundary*=c; boundary*0=d\n\n--c\n\ne", "--c e", ""),
            (b"Content-Type: multipart/mixed; boundary=b\n\nno part", "no part", ""),
            (b"Content-Type: multipart/mixed; boundary=b\n\n--b\n\none\n--bb\nx--b\n--b \t\n\nnot closed", "one --bb x--b not closed", ""),
            (b'Content-Type: application/x; name="caf\xc3\xa9.x"\n\nno', "", "Attachment: caf\u00e9.x"),
        ]:
            for line_end in (b"\n", b"\r\n"):
                found = self.text(b"Subject: x\n".replace(b"\n", line_end) + raw.replace(b"\n", line_end))
                self.assertEqual((found.title, " ".join(found.body.split()), found.head), ("x", text, head), raw)

    def test_parts_in_parts(self):
        """Without an end to them, as deep as they go, and in as much room as the message has."""
        for levels in (10, 700, 900):
            inner = b"Content-Type: message/rfc822\n\n" * levels
            self.assertIn("fox", messages.Message(b"Subject: deep\n" + inner + b"Subject: x\n\nfox").text().body.split(), levels)
        deep = b"".join(b"Content-Type: multipart/mixed; boundary=b%d\n\n--b%d\n\ntext %d\n--b%d\n" % ((level,) * 4) for level in range(5000))
        text = messages.Message(b"Subject: deep\n" + deep).text()
        self.assertLessEqual({str(level) for level in range(5000)}, set(text.body.split()))

    def test_heads(self):
        for head, lines in [
            (b"From: Ann <ann@x>\nTo: bob@x,\n\tcid@x\nCc: =?utf-8?q?D=C3=A9d=C3=A9?= <d@x>\nTo: eve@x", 
             ["From: Ann <ann@x>", "To: bob@x, cid@x", "To: eve@x", "Cc: D\u00e9d\u00e9 <d@x>"]),
            (b"Date: Mon, 1 Jan 2024 23:30:00 -0800", ["Date: 2024-01-01 20240101"]),
            (b"Date: 3 Feb 99 1:2", ["Date: 1999-02-03 19990203"]),
            (b"Date: 30 Feb 2024 10:00:00 +0000", ["Date: 30 Feb 2024 10:00:00 +0000"]),
            (b"Date: yesterday", ["Date: yesterday"]),
            (b"From: \xff", ["From: \u00ff"]),
            (b"Content-Type: image/png; name*=utf-8''na%C3%AFve.png", ["Attachment: na\u00efve.png"]),
            (b'Content-Type: image/png; name="=?utf-8?q?na=C3=AFve.png?="', ["Attachment: na\u00efve.png"]),
            (b"", []),
        ]:
            found = self.message(b"Subject: x\n" + head, b"")
            self.assertEqual(found.head.split("\n") if found.head else [], lines, head)

    def test_archives(self):
        deep = b"Message-ID: <deep@x>\n"
        for level in range(1200):
            deep += b"Content-Type: multipart/mixed; boundary=b%d\n\n--b%d\n" % (level, level)
        attached = base64.encodebytes(os.urandom(15_000_000))
        archive = b"\n".join(
            [
                LETTER % (b"one", b"one", b"one"),
                LETTER % (b"two", b"two", b"two"),
                LETTER % (b"one", b"one", b"one"),
                LETTER % (b"one", b"one", b"another"),
                b"From a@b Mon Jan  1 00:00:00 2024\nSubject: without\n\nname\n",
                b"From a@b Mon Jan  1 00:00:00 2024\nMessage-ID: <with blanks @x>\nSubject: odd \xff\n\nname\n",
                b"From a@b Mon Jan  1 00:00:00 2024\n\nno header\n",
                b"From a@b Mon Jan  1 00:00:00 2024\n" + deep,
                b"From a@b Mon Jan  1 00:00:00 2024\nMessage-ID: <long@x>\n\n" + b" ".join(b"%d" % i for i in range(1_000_000)) + b"\n",
                b"From a@b Mon Jan  1 00:00:00 2024\nMessage-ID: <big@x>\nContent-Type: multipart/mixed; boundary=b\n\n"
                b"--b\n\nthe text of it\n--b\nContent-Type: image/png\nContent-Transfer-Encoding: base64\n\n"
                + attached
                + b"--b--\n",
                LETTER % (b"last", b"last", b"last"),
            ]
        )
        path = self.write("mail.mbox", archive)
        said = self.main(mail, self.path, path, expect=1)
        self.assertIn("11 documents: 9 added, 1 repeated, 1 refused\n", said)
        self.assertIn("it has no header", said)
        self.assertIn(f"1 document in parts, since a line has {LINE_LIMIT:,} bytes", said)
        self.assertEqual(self.whole("long@x")[0], " ".join(map(str, range(1_000_000))))
        bodies = self.bodies()
        self.assertEqual(bodies["one@x"], "the text of one")
        self.assertEqual(bodies["one@x~2"], "the text of another")
        self.assertEqual(bodies[name_of("with blanks @x")], "name")
        self.assertEqual(bodies["last@x"], "the text of last")
        self.assertEqual(bodies["big@x"], "the text of it")
        self.assertEqual(len([name for name in bodies if name.startswith("message-")]), 1)

    def test_what_a_mail_reader_notes_is_no_change(self):
        archive = LETTER % (b"one", b"one", b"one") + b"\n" + LETTER % (b"two", b"two", b"two")
        path = self.write("mail.mbox", archive)
        self.assertIn("2 added", self.main(mail, self.path, path))
        self.write("mail.mbox", archive.replace(b"Message-ID: <two@x>\n", b"Status: RO\nMessage-ID: <two@x>\nX-UID: 7\n"))
        self.assertIn("0 added, 2 unchanged", self.main(mail, self.path, path))
        self.write("mail.mbox", archive.replace(b"text of two", b"text of too"))
        self.assertIn("0 added, 1 changed, 1 unchanged", self.main(mail, self.path, path))
        for noted in (b"X-IMAPbase: 1 7", b"X-IMAP: 1 7", b"X-UIDL: a", b"x-gmail-labels : Inbox", b"X-Evolution: 0a-00", b"X-Label: b"):
            for raw in (b"Subject: x\n\ny", b"Message-ID: <a>\nSubject: x\n\ny"):
                message, marked = messages.Message(raw), messages.Message(noted + b"\n" + raw)
                self.assertEqual((marked.wanted, marked.stamp), (message.wanted, message.stamp), noted)
        # That it is flagged is one, of the same document.
        self.write("mail.mbox", archive.replace(b"Message-ID: <two@x>\n", b"Message-ID: <two@x>\nX-Status: F\n"))
        self.assertIn("0 added, 1 changed, 1 unchanged", self.main(mail, self.path, path))
        self.write("mail.mbox", archive)
        self.assertIn("0 added, 1 changed, 1 unchanged", self.main(mail, self.path, path))
        # Nor is an empty line at the end, before a message that has come.
        with open(path, "ab") as file:
            file.write(b"\n" + LETTER % (b"new", b"new", b"new"))
        self.assertIn("1 added, 2 unchanged", self.main(mail, self.path, path))

    def test_maildir(self):
        box = mailbox.Maildir(self.at("Mail"), create=True)
        keys = [box.add(b"Message-ID: <%d@x>\nSubject: s\n\ntext %d\n" % (number, number)) for number in range(5)]
        box.add_folder("sent").add(b"Message-ID: <sent@x>\n\nsent\n")
        self.assertIn("6 documents: 6 added", self.main(mail, self.path, self.at("Mail")))
        # Read, and so moved and renamed.
        message = box[keys[2]]
        message.set_subdir("cur")
        message.set_flags("S")
        box[keys[2]] = message
        self.assertIn("0 added, 1 changed, 5 unchanged", self.main(mail, self.path, self.at("Mail")))
        self.assertIn("0 added, 6 unchanged", self.main(mail, self.path, self.at("Mail")))
        self.assertEqual(self.bodies()["sent@x"], "sent")
        # One message alone.
        path = self.write("one.eml", b"Message-ID: <eml@x>\nSubject: s\n\nFrom now on text\n")
        self.assertIn("1 added", self.main(mail, self.path, path))
        self.assertEqual(self.bodies()["eml@x"], "From now on text")

    def test_what_moves_in_a_maildir_meanwhile(self):
        files = ("new/a", "new/b", "cur/c:2,", ".sub/cur/d:2,", ".sub/new/e")
        moves = [
            ("new/b", "cur/b:2,S"),
            ("cur/c:2,", "cur/c:2,S"),
            ("cur/c:2,", ".sub/cur/c:2,"),
            (".sub/cur/d:2,", "cur/d:2,"),
            (".sub/new/e", ".sub/cur/e:2,"),
            ("new/b", None),
        ]
        read = archives.content_of
        for number, ((old, new), moment) in enumerate(itertools.product(moves, range(len(files)))):
            for name in files:
                self.write(f"{number}/{name}", name[-1] if name[-1] != "," else name[-4])
            top = self.at(str(number))
            reads = []

            def content_of(path):
                reads.append(path)
                if len(reads) == moment + 1:
                    os.rename(os.path.join(top, old), os.path.join(top, new) if new else self.at("gone"))
                return read(path)

            with mock.patch.object(archives, "content_of", content_of):
                found = {entry.place: entry.raw for entry in archives.messages(top, Known())}
            wanted = {b"a", b"b", b"c", b"d", b"e"} - ({b"b"} if new is None else set())
            self.assertLessEqual(wanted, set(found.values()), (old, new, moment))
            self.assertLessEqual(set(found.values()), {b"a", b"b", b"c", b"d", b"e"}, (old, new, moment))

    def test_a_message_that_has_moved_since(self):
        """A reader of mail has looked at it, and it is shown before the next import has seen that."""
        self.write("Mail/new/1.a", b"Message-ID: <a@x>\nSubject: s\n\nthe fox\n")
        self.write("Mail/new/1.ab", b"Message-ID: <ab@x>\nSubject: s\n\nthe dog\n")
        self.main(mail, self.path, self.at("Mail"))
        os.makedirs(self.at("Mail/cur"))
        found = stamps.Records(self.path + ".stamps").found("a@x")
        os.rename(self.at("Mail/new/1.a"), self.at("Mail/cur/1.a:2,S"))
        self.assertEqual(documents.text_at(found).body, "the fox\n")
        os.rename(self.at("Mail/cur/1.a:2,S"), self.at("Mail/cur/1.a:2,RS"))
        self.assertEqual(documents.text_at(found).body, "the fox\n")
        os.remove(self.at("Mail/cur/1.a:2,RS"))
        self.assertEqual(documents.text_at(found), "gone")

    def test_what_of_a_maildir_cannot_be_seen(self):
        message = b"Message-ID: <%d@x>\n\ntext\n"
        self.write("Mail/cur/1:2,", message % 1)
        self.write("Mail/new/2", message % 2)
        self.write("elsewhere/cur/3", message % 3)
        os.symlink("nowhere", self.at("Mail/cur/4:2,S"))
        os.symlink(self.at("elsewhere"), self.at("Mail/.linked"))
        said = self.main(mail, "--prune", "--verbose", self.path, self.at("Mail"), expect=1)
        self.assertIn("4 documents: 2 added, 1 passed over, 1 refused\n", said)
        self.assertIn("refused cur/4:2,S: No such file or directory\n", said)
        self.assertIn("passed over '.linked': a link to a folder\n", said)
        self.assertIn("nothing was pruned", said)
        # The folder of messages itself, with the slash that a shell puts behind it.
        self.assertIn("1 added", self.main(mail, self.at("y.alta"), self.at("Mail/new/")))
        # A folder without mail is no empty one.
        self.write("boxes/notes", b"no mail\n")
        for words in ((), ("--prune",)):
            said = self.main(mail, *words, self.at("z.alta"), self.at("boxes"), expect=1)
            self.assertIn("refused .: no mail: it has no folder cur or new, and no file of messages\n", said)

    def test_folders_of_files(self):
        """Folders of messages, of MH, and of mbox files, packed ones too, and what else stands there."""
        self.write("Mail/inbox", LETTER % (b"one", b"one", b"one") + b"\n" + LETTER % (b"two", b"two", b"two"))
        self.write("Mail/old.mbox.gz", gzip.compress(LETTER % (b"three", b"three", b"three")))
        self.write("Mail/MH/1", b"Message-ID: <four@x>\nSubject: s\n\nFrom now on\n")
        self.write("Mail/MH/2.xz", lzma.compress(b"X-Odd: y\nSubject: s\nMessage-ID: <five@x>\n\ntext\n"))
        self.write("Mail/MH/.mh_sequences", b"unseen: 1-2\n")
        self.write("Mail/notes.txt", b"Dear reader,\n\nFrom: nobody\n")
        self.write("Mail/torn.gz", gzip.compress(b"x" * 99)[:20])
        self.write("Mail/.lists/cur/six:2,S", b"Message-ID: <six@x>\n\ntext\n")
        self.write("Mail/.lists/dovecot-uidlist", b"Subject: no\n\n")
        os.symlink("inbox", self.at("Mail/link"))
        said = self.main(mail, self.path, self.at("Mail"), expect=1)
        self.assertIn("10 documents: 6 added, 3 passed over, 1 refused\n", said)
        self.assertIn("refused torn.gz: it can't be unpacked", said)
        self.assertEqual(sorted(self.stored()), ["five@x", "four@x", "one@x", "six@x", "three@x", "two@x"])
        for name, folder in (("one@x", "inbox"), ("three@x", "old.mbox.gz"), ("four@x", "MH/1"), ("six@x", ".lists/cur/six:2,S")):
            self.assertEqual(stamps.Records(self.path + ".stamps").found(name).path, self.at("Mail/" + folder))
        self.assertIn("the text of three\n", documents.text_at(stamps.Records(self.path + ".stamps").found("three@x")).body)

    def test_several_archives(self):
        first = self.write("first.mbox", LETTER % (b"one", b"one", b"one"))
        second = self.write("second.mbox.gz", gzip.compress(LETTER % (b"two", b"two", b"two") + b"\n" + LETTER % (b"one", b"one", b"one")))
        for words, counts in (((), ("1 added", "1 added, 1 unchanged")), ((), ("0 added, 1 unchanged", "0 added, 2 unchanged"))):
            said = self.main(mail, self.path, first, second, *words)
            self.assertEqual(said.count(" documents: ") + said.count("1 document: "), 2)
            self.assertIn(f"mail: {second}:\nmail: 2 documents: {counts[1]}\n", said)
        self.assertEqual(sorted(self.stored()), ["one@x", "two@x"])

    def test_devices(self):
        """A device gives no end of bytes, or waits for ever."""
        self.assertIn("/dev/zero is a device", self.main(mail, self.path, "/dev/zero", expect=3))

    def test_what_was_not_touched_is_not_read(self):
        """A file whose size and time are as they were, and the front of an mbox that has grown."""
        letter = LETTER % (b"one", b"one", b"one") + b"\n" + LETTER % (b"two", b"two", b"two")
        path = self.write("mail.mbox", letter)
        self.write("Mail/cur/a:2,S", b"Message-ID: <a@x>\nSubject: s\n\ntext\n")
        self.write("Mail/new/b", b"Message-ID: <a@x>\nSubject: s\n\ntext\n")
        self.main(mail, self.path, path, self.at("Mail"))
        with mock.patch.object(messages, "Message", side_effect=AssertionError("it is read")):
            said = self.main(mail, self.path, path, self.at("Mail"))
        self.assertIn("2 documents: 0 added, 2 unchanged\n", said)
        self.assertIn("2 documents: 0 added, 1 unchanged, 1 repeated\n", said)
        read = []

        class Noted(messages.Message):
            def __init__(self, raw):
                read.append(raw)
                super().__init__(raw)

        with open(path, "ab") as file:
            file.write(b"\n" + LETTER % (b"new", b"new", b"new"))
        with mock.patch.object(messages, "Message", Noted):
            self.assertIn("1 added, 2 unchanged", self.main(mail, self.path, path))
        self.assertEqual([b"text of one" in raw for raw in read], [False] * len(read))
        # What has gone from an archive does not come back with it.
        self.write("mail.mbox", LETTER % (b"two", b"two", b"two"))
        for _ in range(2):
            said = self.main(mail, self.path, path)
            self.assertIn("1 document: 0 added, 1 unchanged\n", said)
            self.assertIn("2 documents of earlier runs not seen any more", said)
        self.assertIn("and deleted", self.main(mail, "--prune", self.path, path))
        self.assertEqual(sorted(self.stored()), ["a@x", "two@x"])

    def test_which_files_are_read_again(self):
        """Those whose path, size or time is another one, in a Maildir as in a folder of messages; of all others none is opened."""
        for kind, paths in (("Maildir", ("cur/1:2,S", "cur/2:2,S", "new/3")), ("MH", ("inbox/1", "inbox/2", "inbox/3"))):
            index, top = self.at(f"{kind}.alta"), self.at(kind)
            first, second, third = (os.path.join(top, path) for path in paths)
            for number, path in enumerate(paths, 1):
                self.write(f"{kind}/{path}", b"Message-ID: <%d@x>\nSubject: s\n\ntext %d\n" % (number, number))

            def night(*words):
                opened, open_file = [], archives.opened
                with mock.patch.object(archives, "opened", lambda path: opened.append(path) or open_file(path)):
                    said = self.main(mail, *words, index, top)
                return said.splitlines()[0].partition(": ")[2], sorted(set(opened))

            with self.subTest(kind):
                self.assertEqual(night(), ("3 documents: 3 added", sorted((first, second, third))))
                self.assertEqual(night(), ("3 documents: 0 added, 3 unchanged", []))
                # Written again where it stands: of the same length, and then with the time that it had.
                before = os.stat(second)
                self.write(f"{kind}/{paths[1]}", b"Message-ID: <2@x>\nSubject: s\n\ntext T\n")
                os.utime(second, ns=(before.st_atime_ns, before.st_mtime_ns + 1))
                self.assertEqual(night(), ("3 documents: 0 added, 1 changed, 2 unchanged", [second]))
                before = os.stat(second)
                self.write(f"{kind}/{paths[1]}", b"Message-ID: <2@x>\nSubject: s\n\nlonger text\n")
                os.utime(second, ns=(before.st_atime_ns, before.st_mtime_ns))
                self.assertEqual(night(), ("3 documents: 0 added, 1 changed, 2 unchanged", [second]))
                # Renamed, in a Maildir by a flag.
                flagged = f"{first.partition(':')[0]}:2,FS"
                os.rename(first, flagged)
                what = "1 changed, 2 unchanged" if kind == "Maildir" else "3 unchanged"
                self.assertEqual(night(), (f"3 documents: 0 added, {what}", [flagged]))
                self.assertEqual(night(), ("3 documents: 0 added, 3 unchanged", []))
                # Gone, and a new one.
                os.remove(third)
                fourth = self.write(f"{kind}/{os.path.dirname(paths[1])}/4:2,", b"Message-ID: <4@x>\n\ntext 4\n")
                self.assertEqual(night("--prune"), ("3 documents: 1 added, 2 unchanged", [fourth]))
                self.path = index
                self.assertEqual(self.bodies(), {"1@x": "text 1", "2@x": "longer text", "4@x": "text 4"})
                self.assertEqual(night(), ("3 documents: 0 added, 3 unchanged", []))

    def test_what_the_index_has_lost(self):
        """It is read again, also from an archive that nobody has touched."""
        path = self.write("mail.mbox", LETTER % (b"one", b"one", b"one") + b"\n" + LETTER % (b"two", b"two", b"two"))
        self.main(mail, self.path, path)
        self.write("x.alta", b"".join(self.read(self.path).splitlines(True)[:-1]))
        self.assertIn("1 added, 1 unchanged", self.main(mail, self.path, path))
        # As is what another archive had, too, and was pruned of.
        other = self.write("other.mbox", LETTER % (b"two", b"two", b"two"))
        for archive in (path, other, path, other):
            self.assertNotIn(" added,", self.main(mail, self.path, archive).replace(" 0 added,", ""))
        self.write("other.mbox", LETTER % (b"three", b"three", b"three"))
        self.main(mail, "--prune", self.path, other)
        self.main(mail, self.path, path)
        self.assertEqual(sorted(self.stored()), ["one@x", "three@x", "two@x"])

    def test_a_message_of_two_archives(self):
        """Gone from the one that was read last, it belongs to the other as long as that is there."""
        one, two = LETTER % (b"one", b"one", b"one"), LETTER % (b"two", b"two", b"two")
        first, second = self.write("first.mbox", one + b"\n" + two), self.write("second.mbox", one + b"\n" + two)
        self.main(mail, self.path, first, second)
        self.write("second.mbox", two)
        self.assertNotIn("not seen", self.main(mail, "--prune", self.path, second))
        self.assertEqual(sorted(self.stored()), ["one@x", "two@x"])
        self.assertEqual(stamps.Records(self.path + ".stamps").found("one@x").path, first)
        self.assertIn("0 added, 2 unchanged", self.main(mail, self.path, first))
        self.write("first.mbox", two)
        self.assertIn("1 document of earlier runs not seen any more, and deleted", self.main(mail, "--prune", self.path, first))
        self.assertEqual(sorted(self.stored()), ["two@x"])
        # An archive that is not there any more has nothing.
        self.main(mail, self.path, second)
        os.remove(first)
        self.write("second.mbox", one)
        self.assertIn("deleted", self.main(mail, "--prune", self.path, second))
        self.assertEqual(sorted(self.stored()), ["one@x"])

    def test_another_message_of_one_name(self):
        """One that comes before the one that the index has leaves that one in it."""
        for number, (known, other) in enumerate((("cur/m", "cur/a"), ("cur/m", "new/n"), ("new/m", "cur/n"))):
            path, top = self.at(f"{number}.alta"), self.at(f"Mail{number}")
            self.write(f"Mail{number}/{known}", b"Message-ID: <a@x>\n\nfirst\n")
            self.main(mail, path, top)
            self.write(f"Mail{number}/{other}", b"Message-ID: <a@x>\n\nother\n")
            self.main(mail, path, top)
            self.path = path
            self.assertEqual(sorted(self.bodies().values()), ["first", "other"], (known, other))
            self.assertIn("0 added, 2 unchanged", self.main(mail, path, top), (known, other))

    def test_notes(self):
        """What an archive notes of a message is found, and is no other message."""
        raw = b"Message-ID: <a@x>\nSubject: s\n\ntext\n"
        self.write("Mail/.lists.debian/new/m", raw)
        self.write("Mail/cur/copy:2,S", raw)
        self.assertIn("2 documents: 1 added, 1 repeated\n", self.main(mail, self.path, self.at("Mail")))
        for name, words in (("cur/m:2,", "is:unread folder:lists.debian"), ("cur/m:2,FRS", "is:flagged is:replied folder:lists.debian")):
            before, = os.listdir(self.at("Mail/.lists.debian/" + ("new" if name == "cur/m:2," else "cur")))
            old = self.at("Mail/.lists.debian/" + ("new/" if name == "cur/m:2," else "cur/") + before)
            self.write("Mail/.lists.debian/" + name, raw)
            os.remove(old)
            self.main(mail, self.path, self.at("Mail"))
            self.assertIn(words, self.stored()["a@x"][2])
        self.assertEqual(len(self.stored()), 1)
        for head, notes in [
            (b"Status: O", "is:unread"),
            (b"Status: RO\nX-Status: AF", "is:flagged is:replied"),
            (b"X-Mozilla-Status: 0005", "is:flagged"),
            (b"X-Mozilla-Status: 0000\nX-Mozilla-Keys: work to-do", "is:unread label:work label:to label:do"),
            (b"X-Gmail-Labels: Inbox,=?utf-8?q?caf=C3=A9?=", "label:Inbox label:caf\u00e9"),
            (b"Subject: x", ""),
        ]:
            self.assertEqual(fields.notes_of(parted(head + b"\n\n")[0], ""), notes)


class Fields(Case):
    def terms(self, head, body=b"text"):
        return messages.document_of(archives.Entry("", head + b"\n\n" + body)).load().terms.split(" ")

    def test_fields(self):
        for head, wanted, unwanted in [
            (
                b"From: Ann Lee <ann.lee@lists.example.org>\nTo: bob@x.org",
                "from:Ann from:Lee from:ann from:lee from:ann.lee@lists.example.org from:lists.example.org from:example.org "
                "from:example to:bob@x.org to:bob to:x.org",
                "from:bob to:ann from:org to:org",
            ),
            (b"To: =?utf-8?q?D=C3=A9d=C3=A9_Vu?= <d@x.org>,\n \"Lee, Ann\" <a@y.org>", "to:D\u00e9d\u00e9 to:Vu to:Lee to:Ann to:a@y.org", "cc:Ann"),
            (b"Cc: undisclosed-recipients:;\nBcc: z@x.org", "cc:undisclosed cc:recipients bcc:z@x.org", ""),
            (b"List-Id: Debian <debian-devel.lists.debian.org>", "list:debian-devel.lists.debian.org list:debian-devel", "list:Debian"),
            (b"X-Mailing-List: <debian-devel@lists.debian.org> archive/latest/1", "list:debian-devel@lists.debian.org list:debian-devel", ""),
            (b"Content-Type: image/png; name=\"re_port.pdf\"", "attachment:re_port.pdf attachment:re attachment:pdf", ""),
            (b"Content-Type: multipart/signed; boundary=b", "is:signed", "is:encrypted"),
            (b"Content-Type: multipart/encrypted; boundary=b", "is:encrypted", "is:signed"),
            (b"Content-Type: application/pkcs7-mime; smime-type=signed-data; name=smime.p7m", "is:signed", "is:encrypted is:attached"),
            (b"Content-Type: application/x-pkcs7-mime; smime-type=enveloped-data; name=smime.p7m", "is:encrypted", "is:signed is:attached"),
            (b"Content-Type: application/pkcs7-mime; smime-type=certs-only; name=smime.p7c", "", "is:signed is:encrypted"),
            (b"From: a@" + b"b." * 500, "from:a from:b", "from:b.b"),
        ]:
            words = set(self.terms(b"Subject: x\n" + head))
            self.assertLessEqual(set(wanted.split()), words, head)
            self.assertFalse(set(unwanted.split()) & words, head)

    def test_ids(self):
        long = "20240131." + "a" * 80 + "@x.org"
        for query, asked in [
            ("id:a@x fox", "name:a@x fox"),
            (f"(id:<{long}> OR id:b@x)", f"(name:{name_of(long)} OR name:b@x )"),
            ('"id:a@x" grid:a NOT id:b', '"id:a@x" grid:a NOT name:b'),
        ]:
            self.assertEqual(with_names(query), asked)
        # A number in an id is no value of its message.
        self.assertFalse([word for word in self.terms(b"Message-ID: <20240131.1@x.org>") if "2024" in word])

    def test_threads(self):
        def thread(head):
            word, = [word for word in self.terms(head) if word.startswith("thread:")]
            return word

        first = thread(b"Message-ID: <a@x>")
        self.assertEqual(thread(b"Message-ID: <b@x>\nIn-Reply-To: Ann's of Monday <a@x>"), first)
        self.assertEqual(thread(b"Message-ID: <c@x>\nReferences: <a@x>\n <b@x>\nIn-Reply-To: <b@x>"), first)
        self.assertNotEqual(thread(b"Message-ID: <b@x>"), first)
        self.assertRegex(first, "^thread:[a-p]{16}$")
        # Of a message that was brought in the header alone says it.
        self.main(mail, self.path, self.write("mail.mbox", LETTER % (b"one", b"one", b"one")))
        with mock.patch.object(messages, "parsed", side_effect=AssertionError("its parts are read")):
            self.assertEqual(documents.Places(self.path).thread("one@x"), f"thread:{fields.thread_word(b'one@x')}")

    def test_dates(self):
        for head, line in [
            (b"Received: from x by y; Mon, 1 Jan 2024 23:30:00 -0800\nReceived: by z; Sun, 31 Dec 2023 1:00", "Date: 2024-01-01 20240101"),
            (b"Received: by z; Sun, 31 Dec 2023 1:00\nDate: Mon, 1 Jan 2024 23:30:00 -0800", "Date: 2024-01-01 20240101"),
        ]:
            self.assertEqual(messages.document_of(archives.Entry("", head + b"\n\n")).load().head, line)

    def test_texts(self):
        flowed = b"Content-Type: text/plain; format=flowed; delsp=yes\n\n"
        card = b"Content-Type: text/calendar\n\n"
        for raw, text in [
            (flowed + b"A para \ngraph.\n> quo \n> ted\nend\n-- \nsig", "A paragraph.\n> quoted\nend\n-- \nsig"),
            (b"Content-Type: text/plain; format=flowed\n\nA para \ngraph.", "A para \ngraph."),
            (card + b"SUMMARY:Budget meeting\nLOCATION;LANGUAGE=de:Atr\n ium\\, 2\nORGANIZER;CN=\"Zoe: Lee\":mailto:zoe@x.org",
             "SUMMARY: Budget meeting\nLOCATION: Atrium, 2\nORGANIZER: Zoe: Lee zoe@x.org"),
            (card + b"DTSTART;TZID=Europe/Berlin:20240131T090000Z", "DTSTART: 20240131 090000Z"),
        ]:
            self.assertEqual(messages.document_of(archives.Entry("", b"Subject: x\n" + raw)).load().body.strip(), text)

    def test_attached_texts(self):
        """Texts with a file name are texts, and left out where that is asked for."""
        parts = [
            b"Content-Type: text/x-diff\nContent-Disposition: inline; filename=0001.patch\n\nalpha",
            b"Content-Type: text/plain; name=log.txt\nContent-Disposition: attachment\n\nbeta",
            b"Content-Type: text/plain; name=body.txt\n\ngamma",
            b"Content-Type: text/plain\n\ndelta",
        ]
        raw = b"Message-ID: <a@x>\nContent-Type: multipart/mixed; boundary=b\n\n" + b"".join(b"--b\n" + part + b"\n" for part in parts) + b"--b--\n"
        path = self.write("mail.mbox", b"From a Mon Jan 1 00:00\n" + raw)
        for words, said, body in (((), "1 added", "alpha beta gamma delta"), (("--no-attachments",), "0 added, 1 changed", "delta"), ((), "0 added, 1 changed", "alpha beta gamma delta")):
            self.assertIn(said, self.main(mail, *words, self.path, path))
            self.assertEqual(self.bodies()["a@x"], body)

    def test_messages_in_messages(self):
        """Of one that is attached who wrote it to whom is found, and of a report what became of which message."""
        attached = b"Content-Type: message/rfc822\n\nFrom: =?utf-8?q?Zo=C3=A9?= <zoe@x>\nTo: bob@x\nX-No: never\nSubject: plan\n  B\n\ninner"
        bounce = (
            b"Content-Type: message/delivery-status\n\nReporting-MTA: dns; mx.example.org\n\n"
            b"Final-Recipient: rfc822; lost@example.org\nStatus: 5.1.1\nDiagnostic-Code: smtp; 550 no such\n mailbox\n"
        )
        seen = b"Content-Type: message/disposition-notification\n\nFinal-Recipient: rfc822; ann@x\nDisposition: manual-action; displayed\n"
        for part, text in [
            (attached, "From: Zo\u00e9 <zoe@x>\nTo: bob@x\nSubject: plan B\ninner"),
            (bounce, "Reporting-MTA: dns; mx.example.org\n\nFinal-Recipient: rfc822; lost@example.org\nStatus: 5.1.1\n"
             "Diagnostic-Code: smtp; 550 no such mailbox"),
            (seen, "Final-Recipient: rfc822; ann@x\nDisposition: manual-action; displayed"),
        ]:
            for raw in (part, b"Content-Type: multipart/mixed; boundary=b\n\n--b\n" + part + b"\n--b--\n"):
                found = messages.Message(b"Subject: x\n" + raw).text()
                self.assertEqual([line for line in found.body.split("\n") if line], [line for line in text.split("\n") if line], raw)
                self.assertEqual(found.head, "")

    def test_what_is_signed(self):
        """The text in an S/MIME part that is signed and not encrypted, however its encoding puts it, and whatever is broken in it."""
        signed_data, data, enveloped = (bytes.fromhex("06092a864886f70d0107" + end) for end in ("02", "01", "03"))
        inner = b"Content-Type: text/html; charset=utf-8\r\n\r\n<p>the secret f<b>ox</b> of " + b"A" * 300

        def element(tag, *contents, open_end=False):
            content = b"".join(contents)
            if open_end:
                return bytes([tag, 0x80]) + content + b"\0\0"
            length = len(content).to_bytes(2, "big")
            return bytes([tag]) + (bytes([len(content)]) if len(content) < 128 else b"\x82" + length) + content

        def cms(*octets, kind=signed_data, open_end=False):
            content = [element(0xA0, *octets, open_end=open_end)] if octets else []
            signed = element(0x30, b"\x02\x01\x01", element(0x31), element(0x30, data, *content, open_end=open_end), element(0x31), open_end=open_end)
            return element(0x30, kind, element(0xA0, signed, open_end=open_end), open_end=open_end)

        plain = cms(element(4, inner))
        pieces = cms(element(0x24, element(4, inner[:100]), element(0x24, element(4, inner[100:])), open_end=True), open_end=True)
        shown = "the secret fox of " + "A" * 300
        for der, text, kind in [
            (plain, shown, "is:signed"),
            (pieces, shown, "is:signed"),
            (cms(), "", "is:signed"),
            (cms(element(0x0C, inner)), "", "is:signed"),
            (cms(element(4, inner), kind=enveloped), "", "is:encrypted"),
            (b"", "", "is:encrypted"),
            (b"\x30\x80" * 100_000, "", "is:encrypted"),
        ]:
            raw = b"Content-Type: application/pkcs7-mime; name=smime.p7m\nContent-Transfer-Encoding: base64\n\n" + base64.encodebytes(der)
            found = messages.Message(b"Subject: x\n" + raw).text()
            self.assertEqual((found.body.strip(), found.terms.split(" ")[-1]), (text, kind))
        for whole in (plain, pieces):
            for at in range(len(whole)):
                self.assertIsNone(signed_content(whole[:at]))
                signed_content(whole[:at] + bytes([whole[at] ^ 0x91]) + whole[at + 1 :])

    def test_composed_letters(self):
        self.assertEqual(spaced("cafe\u0301"), "caf\u00e9")


class Inner(Case):
    def test_words(self):
        for text, added in [
            ("core.autocrlf is set", "core.autocrlf core autocrlf"),
            ("SUMMARY:Budget meeting", "SUMMARY:Budget SUMMARY Budget"),
            ("jan@example.org, zoe@example.org", "example.org example org"),
            ("strbuf_add(__init__) x", "strbuf_add strbuf add __init__ init"),
            ("l'homme fox's don\u2019t", "l'homme homme fox's fox don\u2019t don"),
            # Numbers keep their value, and what the program parts by itself needs nothing.
            ("3.14 2024.01.31 v1.b 10:30 a.b red-fox x_1", ""),
            ("", ""),
        ]:
            self.assertEqual(inner_words(text), added, text)

    def test_no_text_takes_long(self):
        many = 1 << 20
        for text in ("a" * many, "a." * many, "_" * many, "a_" * many, "a.a " * many, "." * many, "a'" * many):
            with self.subTest(text=text[:9]), processor_time(60):
                inner_words(text)

    def test_each_part_fits(self):
        """A long text whose words are nearly all kept together."""
        text = " ".join(f"abc.d{chr(97 + number % 26)}x{number}.efg" for number in range(24_000))
        parts = parts_of("a", messages.Text("title", text), False)
        self.assertGreater(len(parts), 2)
        for name, title, body in parts:
            self.assertLessEqual(len(f"add {name}\t{title}\t{body}".encode()), LINE_LIMIT)
        self.assertEqual({word for word in text.split(" ")} - {word for _, _, body in parts for word in body.split(" ")}, set())


class RealProgram(Case):
    def setUp(self):
        super().setUp()
        if PROGRAM is None:
            self.skipTest("no program was given")
        self.program = PROGRAM

    def test_questions(self):
        """Each field finds its message alone, and the parts of words find theirs, where phrases of the text stay."""
        messages = [
            b"Message-ID: <one@x.org>\nFrom: Ann Lee <ann@example.org>\nTo: bob@other.net\nDate: Mon, 1 Jan 2024 09:00:00 +0100\n"
            b"Subject: core.autocrlf\nList-Id: <debian-devel.lists.debian.org>\n\nit is set by core.eol here",
            b"Message-ID: <20240131." + b"a1-" * 40 + b"@x.org>\nFrom: bob@other.net\nTo: Ann Lee <ann@example.org>\nReferences: <one@x.org>\n"
            b"Date: Thu, 1 Feb 2024 09:00:00 +0100\nSubject: Re: core\n\neol here and set by",
        ]
        path = self.write("mail.mbox", b"\n".join(b"From a Mon Jan  1 00:00:00 2024\n" + message + b"\n" for message in messages))
        self.assertIn("2 added", self.main(mail, self.path, path))
        with Index(self.path, program=PROGRAM) as index:
            for query, found in [
                ("from:lee", [1]), ("to:lee", [2]), ("from:ann@example.org", [1]), ("from:example.org", [1]), ("to:other.net", [1]),
                ("list:debian-devel", [1]), ("id:one@x.org", [1]), ("id:20240131." + "a1-" * 40 + "@x.org", [2]), ("value:20240131..20240131", []), ("date:2024-02", [2]),
                ("value:20240101..20240131", [1]), ("title:autocrlf", [1]), ('"core autocrlf"', [1]), ("autocrlf", [1]),
                ('"by core.eol here"', [1]), ('"eol here"', [2]), ("core.eol", [1]), ("example", [1, 2]),
                (f"thread:{fields.thread_word(b'one@x.org')}", [1, 2]),
            ]:
                self.assertEqual([number for number, _ in index.search(query)], found, query)


def take_program(path):
    global PROGRAM
    PROGRAM = path


if __name__ == "__main__":
    run_tests("mail", take_program)
