"""Checking in time and size: reports that appear while the manifest still comes, and manifests of
many or very long lines, with a limit on the memory that they take."""

import errno
import os
import subprocess

import harness
from harness import MD5_OF_NOTHING, MD5_OF_ABC, VERDICTS, VERDICTS_ERR, WRITE_ERROR, X_MISSING, Case
from harness import as_bytes, limit
from texts import bad, cannot_read, failed, improper, memory_exhausted, ok, unread, unreadable
from texts import wrong

MEGA = 1000 * 1000


class WhileItComes(Case):
    """Each line is handled before the next one is read."""

    def test_reports_appear_before_the_manifest_ends(self):
        for shows, writes in (self.terminal(), os.pipe()):
            started = self.start(
                "md5sum -c", stdin=subprocess.PIPE, stdout=writes, stderr=subprocess.PIPE
            )
            os.close(writes)
            for line, report in (
                (f"{MD5_OF_ABC}  a", ok("a")),
                (f"{MD5_OF_ABC}  e", failed("e")),
                (f"{MD5_OF_NOTHING}  e", ok("e")),
                (f"{MD5_OF_ABC}  x", unreadable("x")),
            ):
                started.stdin.write(as_bytes([line]))
                self.shown(shows, [report])
            self.shown(started.stderr.fileno(), [X_MISSING])
            self.assertIsNone(started.poll())
            started.stdin.close()
            self.assertEqual(started.wait(timeout=harness.RUN_SECONDS), 1)
            self.assertEqual(started.stderr.read(), as_bytes([unread(1), wrong(1)]))
        started = self.start(
            "md5sum -cw", stdin=subprocess.PIPE, stdout=subprocess.DEVNULL, stderr=subprocess.PIPE
        )
        for number in (1, 2, 3):
            started.stdin.write(b"junk\n")
            self.shown(started.stderr.fileno(), [f"md5sum: standard input: {improper(number)}"])
        self.assertIsNone(started.poll())

    def test_lines_longer_than_a_pipe_holds(self):
        long = "#" * 300000
        manifest = [long, f"{MD5_OF_ABC}  a", long, f"{MD5_OF_NOTHING}  a", long + "\n" + long]
        self.expect(
            "md5sum -c", stdin=manifest, out=[ok("a"), failed("a")], err=[wrong(1)], status=1
        )


class Outputs(Case):
    def test_full(self):
        self.write("l", VERDICTS)
        self.write("good", [f"{MD5_OF_ABC}  a"])
        full = self.full()
        ran = self.run_words("md5sum -c l", stdout=full)
        self.assertEqual(ran.status, 1)
        self.assertTrue(ran.err.endswith(WRITE_ERROR), ran.err)
        self.expect("md5sum -c --status e", status=1, stderr=full)
        self.expect("md5sum -c l", status=1, stdout=full, stderr=full)
        self.expect("md5sum -c --status good", stdout=full, stderr=full)
        self.expect("md5sum -c --quiet good", stdout=full, stderr=full)
        self.expect("md5sum -c good", err=WRITE_ERROR, status=1, stdout=full)


class Sizes(Case):
    """Manifests of many lines and of very long ones. The limits on memory are wide: they tell a
    program that keeps one line from one that keeps the manifest."""

    def test_many_lines(self):
        lines = [f"{MD5_OF_ABC}  a", f"{MD5_OF_NOTHING} *e"] * 100000
        lines[77777], lines[177777], lines[199999] = (
            "junk",
            f"{MD5_OF_NOTHING}  a",
            f"{MD5_OF_ABC}  x",
        )
        self.write("l", lines)
        named = as_bytes([f"md5sum: l: {improper(77778)}"])
        reports = [ok("a"), ok("e")] * 100000
        reports[177777], reports[199999] = failed("a"), unreadable("x")
        del reports[77777]
        ran = self.run_words("md5sum -cw l", preexec_fn=limit("AS", 10 * MEGA))
        self.assertEqual((ran.status, ran.err), (1, named + VERDICTS_ERR))
        self.same(ran.out, reports)
        self.expect("md5sum -c --quiet --strict", stdin=[f"{MD5_OF_ABC}  a"] * 200000)

    def test_one_name_of_100_megabytes(self):
        name = b"y" * (100 * MEGA)
        self.write("l", f"{MD5_OF_ABC}  a\n{MD5_OF_ABC}  ".encode() + name)
        ran = self.run_words("md5sum -c l", preexec_fn=limit("AS", 620 * MEGA))
        self.assertEqual(ran.status, 1)
        self.same(ran.out, [ok("a"), unreadable(name)])
        self.same(ran.err, [cannot_read(name, errno.ENAMETOOLONG), unread(1)])

    def test_long_lines_are_not_kept(self):
        """Twenty lines of five megabytes take the memory of one."""
        with open(self.path("l"), "wb") as file:
            for _ in range(20):
                file.seek(5 * MEGA, os.SEEK_CUR)
                file.write(as_bytes(["", f"{MD5_OF_ABC}  a"]))
        self.expect("md5sum -c --quiet l", err=[bad(20)], preexec_fn=limit("AS", 50 * MEGA))

    def test_want_of_memory(self):
        """At a line longer than the memory that is available the run ends: what came before it is
        reported. If the output is full, the run ends at what comes first, and reports that. The
        full output isn't used if memory was short before the first report."""
        exhausted = [memory_exhausted("md5sum")]
        for before, out, message in (
            ("", b"", exhausted),
            (f"{MD5_OF_ABC}  a\n", [ok("a")], WRITE_ERROR),
        ):
            with open(self.path("l"), "wb") as file:
                file.write(as_bytes(before))
                file.seek(2000 * MEGA, os.SEEK_CUR)
                file.write(as_bytes(["", f"{MD5_OF_ABC}  a"]))
            full, limited = self.full(), {"status": 1, "preexec_fn": limit("AS", 400 * MEGA)}
            self.expect("md5sum -c l x", out=out, err=exhausted, **limited)
            self.expect("md5sum -c l", err=message, stdout=full, **limited)
            self.expect("md5sum -c l", stdout=full, stderr=full, **limited)
