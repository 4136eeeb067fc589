"""Lines of the protocol: what is asked as text, and answers as values."""
import operator
import re
from types import MappingProxyType
from typing import Any, Dict, Iterator, List, Mapping, NamedTuple, Sequence, Union

from .errors import Busy, Error, Idle, Lost, Misunderstood, Refused

# A word of a line, or what is written as one: any integer but a `bool`, and what has bytes.
Argument = Union[int, str, bytes, bytearray, memoryview]
# What a call is answered: see `reply_of`.
Reply = Any

# How many bytes a line has at most, with the tag of its client and without its line feed.
LONGEST = 4095
# How many seconds a transaction in one line may wait at most: a day.
MOST_SECONDS = 86400
# How many bytes go into a pipe at once or not at all, of which a line is no more.
AT_ONCE = LONGEST + 1


# ---- answers


class Collection(NamedTuple):
    """A collection, and how many items it holds."""
    kind: str
    name: str
    items: int


class Status(NamedTuple):
    """How a store stands, in the words of docs/LISTEN.md; the collections in the order of making. `failed` says that keeping has
    failed, `full` how full the store is, in hundredths, and `writing_since` the second since 1970 at which the write or sync of the
    disk began that goes on, 0 where none does. `commits`, `aborts`, `blocks`, `checkpoints`, `syncs` and `written` bytes count from the
    start of the server on, and so does `busy`, calls that were refused Busy by the kind of the collection; `sleeping` clients wait for
    work, and `clients` are served at the door. `longest_write` is what the longest write or sync of the disk took, and `last_checkpoint` the last checkpoint, in
    microseconds."""
    format: int
    area: int
    in_use: int
    used: int
    live: int
    waiting: int
    next: int
    wear: int
    collections: List[Collection]
    failed: bool = False
    checkpoint: int = 0
    full: int = 0
    writing_since: int = 0
    commits: int = 0
    aborts: int = 0
    blocks: int = 0
    checkpoints: int = 0
    sleeping: int = 0
    busy: Mapping[str, int] = MappingProxyType({})
    clients: int = 0
    syncs: int = 0
    written: int = 0
    longest_write: int = 0
    last_checkpoint: int = 0


PASSING = {'Busy', 'TooManyLive'}
WORDS = {
    'yes': True, 'no': False, 'nothing': None, 'done': None, 'queued': True, 'absent': False,
    'kept': True, 'not yet': False, 'no ticket': None, 'aborted': None, 'bye': None,
}
WITH_NUMBER = {'place', 'begun', 'kept', 'id', 'total'}


def reply_of(answer: str, line: str = '') -> Reply:
    """An answer to a line as a value: numbers, `bytes` for a value, a pair for an item, a key and `bytes` for an entry, a `Status`,
    None for `nothing` and `done`, and of a `do` a list, with its place at the end. Raises what an answer refuses, and `Error`
    where it is none that this client knows."""
    if answer in WORDS:
        return WORDS[answer]
    word, _, rest = answer.partition(' ')
    if word == 'refused':
        raise refused_by(answer)
    if word == 'error':
        raise Idle(answer) if rest == 'Idle' else Misunderstood(rest, line)
    try:
        return value_of(answer, word, rest)
    except (ValueError, IndexError, TypeError) as error:
        raise Error('an answer that this client does not know: %r' % answer) from error


def refused_by(answer: str) -> Refused:
    refused = Refused(answer)
    return Busy(answer) if refused.name in PASSING else Lost(answer) if refused.name == 'Lost' else refused


def value_of(answer: str, word: str, rest: str) -> Reply:
    if word in ('format', 'failed;'):
        return status_of(answer)
    if '; ' in answer:
        return [reply_of(part) for part in answer.split('; ')]
    if word in WITH_NUMBER:
        return int(rest)
    if word == 'item':
        priority, tag = rest.split()
        return int(priority), int(tag)
    if word == 'value':
        return bytes_of(rest)
    if word == 'entry':
        key, value = rest.split()
        return int(key), bytes_of(value)
    raise ValueError(answer)


def status_of(answer: str) -> Status:
    numbers: Dict[str, Any] = {}
    busy: Dict[str, int] = {}
    collections: List[Collection] = []
    for part in answer.split('; '):
        name, *words = part.split()
        if name == 'collection':
            collections.append(Collection(words[0], words[1], int(words[2])))
        elif name == 'busy':
            busy[words[0]] = int(words[1])
        elif name == 'failed':
            numbers[name] = words != ['0']
        elif name in Status._fields:
            numbers[name] = int(words[0])
    return Status(collections=collections, busy=busy, **numbers)


def bytes_of(text: str) -> bytes:
    return b'' if text == '-' else bytes.fromhex(text)


# ---- lines


# One or more printing characters, none of which is a space or a semicolon.
WORD = re.compile(r'[!-:<-~]+')
CONTROL = re.compile(rb'[\x00-\x1f\x7f]')


def word_of(argument: Argument, is_signed: bool = False) -> str:
    """An argument as a word. ValueError for a text that is none and for a number that has more than 64 bits or a sign in vain;
    TypeError for what is no text, number or bytes."""
    if isinstance(argument, str):
        if not WORD.fullmatch(argument):
            raise ValueError('no word of a line: %r' % argument)
        return argument
    if isinstance(argument, (bytes, bytearray, memoryview)):
        return bytes(argument).hex() or '-'
    if isinstance(argument, bool):
        raise TypeError('a truth value is no word of a line')
    number = operator.index(argument)
    least, end = (-2 ** 63, 2 ** 63) if is_signed else (0, 2 ** 64)
    if not least <= number < end:
        raise ValueError('the number %d is not from %d to %d' % (number, least, end - 1))
    return '%d' % number


def words_of(*arguments: Argument) -> str:
    """Arguments as words, with a space between two. The number of a `bump` may be below nothing."""
    words, is_signed = [], False
    for argument in arguments:
        words.append(word_of(argument, is_signed))
        is_signed = words[-1] == 'bump' and isinstance(argument, str)
    return ' '.join(words)


def seconds_of(seconds: float) -> str:
    """So many seconds as the word behind `within`, to a thousandth. ValueError for less than none and for more than a day."""
    if not 0 <= seconds <= MOST_SECONDS:
        raise ValueError('%r seconds are not from 0 to %d' % (seconds, MOST_SECONDS))
    return '%d.%03d' % divmod(round(seconds * 1000), 1000)


def bytes_of_line(text: str, longest: int) -> bytes:
    """A line with its line feed. ValueError for what is no line, or none that is answered, and for more bytes than the longest."""
    data = text.encode()
    if not data or data.startswith(b'#') or CONTROL.search(data):
        raise ValueError('no line that is answered: %r' % text)
    if len(data) > longest:
        raise ValueError('a line of %d bytes, where %d are the most: %r..' % (len(data), longest, text[:60]))
    return data + b'\n'


def batches(lines: Sequence[bytes]) -> Iterator[bytes]:
    """Lines, as many at a time as go into a pipe at once."""
    batch = b''
    for line in lines:
        if len(batch) + len(line) > AT_ONCE and batch:
            yield batch
            batch = b''
        batch += line
    if batch:
        yield batch
