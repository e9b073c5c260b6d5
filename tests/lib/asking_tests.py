"""Tests of the tests on questions, with the sample of a layer's questions: that a difference is noticed, that a cut
question ends the program, and that the sample is what rt ci runs the program on. lib/suite.py runs them for each file
with a `sample`.
"""
import sys

from lib import programs, question
from lib.asking import SAMPLE_FILES, text_of


def a_difference_is_noticed(asker, questions):
    """A comparison that never fails shows nothing: one changed byte, a lost line and a line too many must be
    noticed."""
    pairs = [(q, asker.expected(q)) for q in questions]
    questions, right = zip(*((q, answer) for q, answer in pairs if answer is not None))
    text = asker.answers_to(questions)
    asker.stop_at(asker.differences(questions, right, text), len(questions))
    for k, answer in enumerate(right):
        for at in {0, len(answer) // 2, len(answer) - 1, *range(0, len(answer), 17)}:
            wrong = list(right)
            wrong[k] = answer[:at] + chr(ord(answer[at]) ^ 1) + answer[at + 1:]
            different = asker.differences(questions, wrong, text)
            assert [q for q, _, _ in different] == [questions[k]], (k, at, different)
        if "\n" in answer:
            assert asker.differences(questions, [*right[:k], answer[:answer.rindex("\n")], *right[k + 1:]], text)
        assert asker.differences(questions, [*right[:k], answer + "\nend", *right[k + 1:]], text)
    assert asker.differences(questions, right, text[:-1])
    assert asker.differences(questions, right, text[:text.rindex("\n", 0, -1) + 1])
    assert asker.differences(questions, right, text + "end\n")
    assert asker.differences(questions, right, "")


def a_cut_question_ends_the_program(asker, q):
    """It ends without an answer to it, and what was answered before stands."""
    whole, answer = asker.packed(q), text_of([asker.expected(q)])
    for at in question.cuts(whole, *asker.pieces(q)):
        assert programs.run(programs.ASKED, whole + whole[:at]) == answer, at
    # so does one with a number that there is not, and one with more bytes for a name than that has
    strange = bytes((q.kind, 1, len(question.TAGS))) + bytes(8)
    long = question.question(q.kind, name=bytes(question.NAME + 1))
    for other in (strange, long):
        assert programs.run(programs.ASKED, whole + other + whole) == answer
    # and a record that the program has no room for
    room = question.ROOM - len(q.table)
    assert programs.run(programs.ASKED, asker.packed(q._replace(record=bytes(room + 1))) + whole) == ""
    assert programs.run(programs.ASKED, asker.packed(q._replace(record=bytes(room))) + whole).endswith(answer)


def sample_texts(asker, questions):
    """These questions, and the answers to them."""
    return b"".join(map(asker.packed, questions)), text_of(map(asker.expected, questions)).encode("latin-1")


def the_samples_are_as_kept(asker, questions):
    """That a test's questions, and its answers, stand in the files that rt ci runs the program on."""
    for path, text in zip(SAMPLE_FILES, sample_texts(asker, questions)):
        with open(path, "rb") as given:
            if text not in given.read():
                sys.exit("%s is not what tests/make_samples writes" % path)


def hold(asker, sample):
    """All of these, for a file's sample. The longest of its questions is cut."""
    the_samples_are_as_kept(asker, sample)
    a_difference_is_noticed(asker, sample)
    a_cut_question_ends_the_program(asker, max(sample, key=lambda q: len(q.record) + len(q.table)))
