"""Questions to the program that answers for the library, and the comparison of its answers with the expected ones."""
import os
import re
import sys

from lib import programs, question, reading

LAST = question.LAST

# What rt ci runs the program on: the files stdin and stdout of its crate, which tests/make_samples writes. Each
# test's own questions stand there, those of one test behind those of another.
SAMPLE_FILES = tuple(os.path.join(programs.ROOT, "crates", programs.ASKED, name) for name in ("stdin", "stdout"))


def of(call, *given):
    """What a call of the second reading answers, its refusal included."""
    try:
        return call(*given)
    except reading.Refusal as refusal:
        return refusal


def said(answer, words):
    """An answer in the program's words: `words` has the word for each type of answer."""
    if answer is None:
        return "end"
    if isinstance(answer, reading.Refusal):
        return "refused %d %d %d" % (answer.number, answer.file, answer.place)
    return " ".join([words[type(answer)]] + [str(int(n)) for n in answer])


def said_bytes(word, given):
    return "%s %d %s" % (word, len(given), given.decode("latin-1"))


# The front of a line that ends in bytes, up to these: they may hold an end of line.
BYTES = re.compile(r"[a-z0-9 ]*\b(?:view|name) (\d+) ")


def end_of_line(text, at):
    """Where the line at a place ends, or -1 where the text ends before it does."""
    front = BYTES.match(text, at)
    return text.find("\n", front.end() + int(front.group(1)) if front else at)


def text_of(answers):
    """The program's text, where it gives these answers. An answer of no line is None."""
    return "".join(answer + "\n" for answer in answers if answer is not None)


class Asker:
    """Gathers questions with their expected answers, asks them in batches, and stops the test at a difference.

    A layer says its calls by the kind of question (CALLS), how a question is packed and shown, and what is expected.
    """

    CALLS = ()
    BATCH = 32_000_000

    def __init__(self):
        self.questions, self.expected_answers, self.size = [], [], 0
        self.asked, self.lines = [0] * len(self.CALLS), 0
        self.refusals = {}

    # What a layer says of its questions.

    def packed(self, q):
        raise NotImplementedError

    def pieces(self, q):
        """What stands in a packed question behind its numbers."""
        return q.record, q.table

    def shown(self, q):
        """The question for people: how many bytes there are, not which."""
        return q._replace(record="%d bytes" % len(q.record), table="%d bytes" % len(q.table))

    def expected(self, q):
        raise NotImplementedError

    def counted(self, q, answer):
        """The question as it is asked for this answer."""
        return q

    def goes_on(self, q, lines):
        """Whether the answer to a question has a further line behind these."""
        return not lines

    def refused(self, q, refusal):
        """What a refusal is counted under."""
        return refusal[0]

    def count_refusal(self, q, answer):
        """Counts the refusal that an answer tells, if it tells one."""
        if "refused " in answer:
            given = self.refused(q, [int(n) for n in answer.split("refused ")[1].split()[:3]])
            self.refusals[given] = self.refusals.get(given, 0) + 1

    # Asking.

    def ask(self, q, answer):
        """Keeps a question for the next batch, with the answer that it must have."""
        q = self.counted(q, answer)
        self.questions.append(q)
        self.expected_answers.append(answer)
        self.size += len(q.record) + len(q.table)
        if self.size >= self.BATCH:
            self.flush()

    def put_question(self, q):
        self.ask(q, self.expected(q))

    def put_literal_question(self, answer, q):
        """An answer that follows from the rules by hand: neither the program nor the second reading may differ."""
        read = self.expected(q)
        if read != answer:
            sys.exit(
                "the second reading differs from what was made by hand: %s,\n%s\nfor\n%s" % (
                    self.shown(q), read, answer))
        self.ask(q, answer)

    def answers_to(self, questions):
        """What the program writes to these questions."""
        return programs.run(programs.ASKED, b"".join(map(self.packed, questions)))

    def flush(self):
        """Asks what has been gathered."""
        if not self.questions:
            return
        text = self.answers_to(self.questions)
        self.stop_at(self.differences(self.questions, self.expected_answers, text), len(self.questions))
        # the refusals that the program itself gave: its text is now known to be the expected one
        for q, answer in zip(self.questions, self.expected_answers):
            self.asked[q.kind] += 1
            if answer is not None:
                self.lines += answer.count("\n") + 1
                self.count_refusal(q, answer)
        self.questions, self.expected_answers, self.size = [], [], 0

    def report(self):
        """How often each call was asked, and which refusals were given."""
        for call, asked in zip(self.CALLS, self.asked):
            if asked:
                print("%9d  %s" % (asked, call))
        print("%9d  questions compared, %d lines" % (sum(self.asked), self.lines))
        if self.refusals:
            print("refusals given: %s" % ", ".join("%s (%d)" % pair for pair in sorted(self.refusals.items())))

    def finish(self, needed=(), unasked=()):
        """The questions that are left, the account, and that each refusal needed and each call was met with, but for
        the calls that are another test's."""
        self.flush()
        self.report()
        missing = set(needed) - set(self.refusals)
        if missing:
            sys.exit("refusals that no question brought about: %s" % sorted(missing))
        calls = [call for kind, call in enumerate(self.CALLS) if not self.asked[kind] and kind not in unasked]
        if calls:
            sys.exit("calls that no question was asked of: %s" % ", ".join(calls))

    # Comparing.

    def answers_in(self, questions, text):
        """The text cut into one answer for each question (some have several lines, or none), and what is left of
        it."""
        at, cut = 0, []
        for q in questions:
            start, lines = at, []
            while self.goes_on(q, lines):
                end = end_of_line(text, at)
                if end < 0:
                    lines.append(text[at:])
                    at = len(text)
                    break
                lines.append(text[at:end])
                at = end + 1
            cut.append(text[start:at].removesuffix("\n") if lines else None)
        return cut, text[at:]

    def differences(self, questions, expected, text):
        """(question, expected, found) wherever the program's text is not what is expected."""
        if text == text_of(expected):
            return []
        found, rest = self.answers_in(questions, text)
        different = [(q, e, f) for q, e, f in zip(questions, expected, found) if e != f]
        if rest or not different:
            different.append((None, "nothing more", rest))
        return different

    def stop_at(self, different, asked):
        """Ends the test where there is a difference, and shows the first ones."""
        for q, expected, found in different[:5]:
            print("question %s" % (self.packed(q).hex() if q else "none: behind the last answer"))
            if q:
                print("    %s, %s" % (self.CALLS[q.kind], self.shown(q)))
            print("    expected %r\n    found    %r" % first_difference(expected, found))
        if different:
            sys.exit("%d of %d answers differ" % (len(different), asked))


def first_difference(expected, found):
    """The first line in which two answers differ, where they have several."""
    ours, theirs = (str(answer).split("\n") for answer in (expected, found))
    for pair in zip(ours, theirs):
        if pair[0] != pair[1]:
            return pair
    return (expected, found) if len(ours) == len(theirs) else (len(ours), "%d lines" % len(theirs))
