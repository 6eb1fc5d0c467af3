"""What each C call answers and writes, by documents 01 and 02, include/dombrelat.h and docs/BOOK.md, independently of the library.

A result is the refusal's number plus 256 times the number that the call gives; that of write_file is its number or a length, a multiple of 128. A book is given as a layout.Book; bytes that hold none are refused with 25 before all else."""
import struct

from layout import BYTES, PLACES, Book, record_words
import survey

EDITS = ('enter_baseline', 'enter_height', 'enter_position', 'strike', 'undo')
CHECKS = ('check', 'check_sheet')
READINGS = ('unknowns', 'sheet_bytes', 'stations', 'record')
ON_BOOKS = EDITS + CHECKS + ('check_distance', 'propose') + READINGS
FILE_CALLS = ('write_file', 'check_file', 'entry_in_force', 'enter_file')      # what they answer is in tests/reference/files.py
SALVAGE = 'salvage'                                                           # what it answers is in tests/reference/salvage.py
NO_BOOK, BAD_LIST, BAD_PLACE, BAD_LENGTHS, NO_PROPOSAL = 25, 1, 2, 10, -1


def refusal(result):
    """DOMBRELAT_REFUSAL: C's remainder, so that −1 and −2 stay"""
    return result % 128 if result >= 0 else result


def result_of(answer):
    """The result of a check's answer, which for 11 has the unknown too."""
    number, *unknown = answer
    return number + 256 * sum(unknown)


def packed(words):
    return struct.pack('<%dq' % len(words), *words)


def words_in(data):
    """The words of a slice; None where its length is not a multiple of 8."""
    return None if len(data) % 8 else list(struct.unpack('<%dq' % (len(data) // 8), data))


def opening(listed, lent):
    """(result of open, the book opened or None)"""
    if len(lent) < BYTES:
        return NO_BOOK, None
    words = words_in(listed) if len(listed) % 32 == 0 else []
    rows = [tuple(words[k:k + 4]) for k in range(0, len(words), 4)]
    return (BAD_LIST, None) if survey.open_number(rows) else (0, Book(rows))


def record_given(kind, numbers):
    """The record of a call's numbers after the place; None for a strike."""
    if kind == 'baseline':
        return survey.Baseline(numbers[0], numbers[1], tuple(numbers[2:5]), tuple(numbers[5:11]), tuple(numbers[11:]))
    if kind == 'position':
        return survey.Position(numbers[0], tuple(numbers[1:4]), tuple(numbers[4:]))
    return survey.Level(*numbers) if kind == 'height' else None


def entering(place, r):
    """(name, numbers) of the call that enters a record"""
    if isinstance(r, survey.Baseline):
        return 'enter_baseline', [place, r.start, r.end, *r.observed, *r.weights, *r.heights]
    if isinstance(r, survey.Position):
        return 'enter_position', [place, r.station, *r.observed, *r.weights]
    return 'enter_height', [place, r.start, r.end, r.up, r.single]


def edit_given(name, numbers):
    """(enter, strike or undo; place; record) of an edit's arguments"""
    call, _, kind = name.partition('_')
    return call, numbers[0] if numbers else None, record_given(kind, numbers[1:])


def lengths_fit(book, x, m):
    n = book.net.n
    return len(x) == 8 * n and len(m) == 8 * n * n


def check(book, x, m, sheet=None):
    """(result, the words of an accepted sheet where one is lent)"""
    parts = [words_in(v) for v in (x, m) + (() if sheet is None else (sheet,))]
    if None in parts:
        return BAD_LENGTHS, []
    answer = survey.check(book.net, book.records, *parts[:2], None if sheet is None else len(parts[2]))
    accepted = answer == (0,) and sheet is not None
    return result_of(answer), survey.sheet(book.net, book.records, *parts[:2]) if accepted else []


def check_distance(book, x, m, *numbers):
    """The result. A slice that does not hold whole words fails test 1, as one without words does."""
    return result_of(survey.check_distance(book.net, book.records, words_in(x) or [], words_in(m) or [], survey.CheckDistance(*numbers)))


def reading(name, book, place=None, room=0):
    """(result, the words written to the lent slice, which has so many bytes)"""
    if name == 'unknowns':
        return 256 * book.net.n, []
    if name == 'sheet_bytes':
        return 256 * 8 * survey.sheet_room(book.net, book.records), []
    if name == 'stations':
        words = [v for row in book.rows for v in row]
        return (BAD_LENGTHS, []) if room < 8 * len(words) else (256 * len(book.rows), words)
    if not 1 <= place <= PLACES:
        return BAD_PLACE, []
    words = record_words(book.records.get(place))
    return (BAD_LENGTHS, []) if room < 8 * len(words) else (0, words)


def outcome(name, book, arguments):
    """(result, bytes at the front of the slice that the call writes: the book of an edit, else the last one lent); an accepted edit changes the book. Not for `propose`, whose
    pair is free. Arguments are those after the book in the call's order, slices as bytes; a book of None stands for bytes that hold none."""
    if book is None:
        return NO_BOOK, b''
    if name in EDITS:
        number = book.edit(*edit_given(name, arguments))
        return number, b'' if number else book.bytes()
    if name in CHECKS:
        result, words = check(book, *arguments)
    elif name == 'check_distance':
        result, words = check_distance(book, *arguments), []
    elif name == 'record':
        result, words = reading(name, book, arguments[0], len(arguments[1]))
    else:
        result, words = reading(name, book, room=len(arguments[0]) if arguments else 0)
    return result, packed(words)
