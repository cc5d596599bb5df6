"""What the examples in Python need of kazovuni.h: its structs, and its functions behind Python's words.

The shared library is the file that the variable KAZOVUNI names, or else the one that the system finds. A call through
ctypes takes a microsecond or two: for many small jobs over pages there are the calls that take a list of descriptors.
"""
import contextlib
import ctypes
import ctypes.util
import os

PAGE = 4096
MOVE, FILL, COMPARE, CREATE_DELTA, APPLY_DELTA = 0x03, 0x04, 0x05, 0x07, 0x08
CHECK_RESULT = 0x80  # the flag of a job whose result is checked

Descriptor = ctypes.c_uint8 * 64
RecordBytes = ctypes.c_uint8 * 32
Page = ctypes.c_uint8 * PAGE


class Job(ctypes.Structure):
    """kazovuni_job"""
    _fields_ = [
        ("opcode", ctypes.c_uint8), ("expected", ctypes.c_uint8), ("flags", ctypes.c_uint32),
        ("source", ctypes.c_uint64), ("target", ctypes.c_uint64), ("extra", ctypes.c_uint64),
        ("size", ctypes.c_uint32), ("delta_size", ctypes.c_uint32)]


class Record(ctypes.Structure):
    """kazovuni_record"""
    _fields_ = [
        ("status", ctypes.c_uint8), ("result", ctypes.c_uint8), ("completed", ctypes.c_uint32),
        ("fault", ctypes.c_uint64), ("delta_size", ctypes.c_uint32)]


class Handle(ctypes.Structure):
    """kazovuni_engine: zeroed at first; of two copies one alone may be used"""
    _fields_ = [("engine", ctypes.c_void_p), ("is_open", ctypes.c_bool)]


def _load():
    """The library, with the types of what is called: without them ctypes takes each number for an int."""
    library = ctypes.CDLL(os.environ.get("KAZOVUNI") or ctypes.util.find_library("kazovuni"))
    to, byte = ctypes.POINTER, ctypes.c_uint8
    word, long, size, truth = ctypes.c_uint32, ctypes.c_uint64, ctypes.c_size_t, ctypes.c_bool
    for name, result, *arguments in [
            ("need", long, to(Descriptor)),
            ("encode", truth, to(Job), to(Descriptor)),
            ("record_decode", truth, to(RecordBytes), to(Record)),
            ("rest", truth, to(Descriptor), to(RecordBytes), to(Descriptor)),
            ("fill", byte, to(Descriptor), ctypes.c_void_p, size, to(RecordBytes)),
            ("move", byte, to(Descriptor), *2 * (ctypes.c_void_p, size), to(RecordBytes)),
            ("compare", byte, to(Descriptor), *2 * (ctypes.c_void_p, size), to(RecordBytes)),
            ("create_delta", byte, to(Descriptor), *3 * (ctypes.c_void_p, size), to(RecordBytes)),
            ("apply_delta", byte, to(Descriptor), *2 * (ctypes.c_void_p, size), to(RecordBytes)),
            ("submit_over", byte, ctypes.c_void_p, size, to(Descriptor), word, to(RecordBytes)),
            ("create", byte, to(Handle), word, word),
            ("free", None, to(Handle)),
            ("bring", byte, to(Handle), word, to(Page)),
            ("read", byte, to(Handle), long, ctypes.c_void_p, size),
            ("submit", byte, to(Handle), to(Descriptor), to(RecordBytes))]:
        function = getattr(library, "kazovuni_" + name)
        function.restype, function.argtypes = result, arguments
    return library


_library = _load()


class Refused(Exception):
    """A call did nothing; its code is one that kazovuni.h names."""


def _expect(answer):
    if answer != 0:
        raise Refused(answer)


def encode(job):
    """The descriptor of a job."""
    descriptor = Descriptor()
    if not _library.kazovuni_encode(job, descriptor):
        raise ValueError("flags do not fit")
    return descriptor


def _given(descriptor):
    """A descriptor, and not the None of `rest`, which a call would take for a pointer."""
    if descriptor is None:
        raise ValueError("nothing is left of the job")
    return descriptor


def record_of(record_bytes):
    """The fields of a completion record; None where its status is none."""
    record = Record()
    return record if _library.kazovuni_record_decode(record_bytes, record) else None


def rest(descriptor, record_bytes):
    """What is left of a job after a page fault; None where nothing is."""
    left = Descriptor()
    return left if _library.kazovuni_rest(_given(descriptor), record_bytes, left) else None


class _Buffer(ctypes.Structure):
    """Py_buffer, of which a call wants the address and the length"""
    _fields_ = [
        ("address", ctypes.c_void_p), ("owner", ctypes.py_object), ("length", ctypes.c_ssize_t),
        ("rest", ctypes.c_ssize_t * 8)]


@contextlib.contextmanager
def _lent(holder, is_written=False):
    """The bytes of whatever has the buffer protocol, where they lie: nothing is copied."""
    buffer, to = _Buffer(), ctypes.byref
    ctypes.pythonapi.PyObject_GetBuffer(ctypes.py_object(holder), to(buffer), int(is_written))
    try:
        yield buffer
    finally:
        ctypes.pythonapi.PyBuffer_Release(to(buffer))


# Where the buffers of a job lie, as far as its descriptor says. The rules judge these addresses, and no call follows
# them: so each buffer has one that is aligned and shares no byte with another, wherever it is.
_SECOND, _THIRD = 1 << 40, 2 << 40


def _carried_out(call, job, read, written=None):
    """The record of a call over buffers of which the last one is written, and may share no byte with another."""
    words = []
    for buffer in [*read, written] if written else read:
        start, end = buffer.address or 0, (buffer.address or 0) + buffer.length
        if written and buffer is not written and start < written.address + written.length and written.address < end:
            raise ValueError("the buffer that is written shares bytes with another one")
        words += [buffer.address, buffer.length]
    record_bytes = RecordBytes()
    _expect(call(encode(job), *words, record_bytes))
    return record_of(record_bytes)


def _size_of(buffer):
    """A length as a descriptor has it; one that does not fit is too long for any job, and so is what stands for it."""
    return min(buffer.length, 2**32 - 1)


def move(source, target):
    """Copies a buffer over another one of the same length."""
    with _lent(source) as one, _lent(target, True) as other:
        job = Job(opcode=MOVE, target=_SECOND, size=_size_of(one))
        return _carried_out(_library.kazovuni_move, job, [one], other)


def fill(pattern, target):
    """Fills a buffer with 8 bytes over and over, the lowest of the number first."""
    with _lent(target, True) as target:
        job = Job(opcode=FILL, source=pattern, size=_size_of(target))
        return _carried_out(_library.kazovuni_fill, job, [], target)


def compare(one, other, flags=0):
    """Finds the first byte in which two buffers of the same length differ: result 1, and `completed` is its place."""
    with _lent(one) as one, _lent(other) as other:
        job = Job(opcode=COMPARE, flags=flags, target=_SECOND, size=_size_of(one))
        return _carried_out(_library.kazovuni_compare, job, [one, other])


def compare_alike(one, other):
    """The same with status 01 only where they are alike, and else 02."""
    return compare(one, other, CHECK_RESULT)


def create_delta(one, other, delta):
    """Writes how a buffer differs from another one of the same length: 10 bytes for each differing block of 8, in at
    most the bytes of `delta`, a multiple of 10."""
    with _lent(one) as one, _lent(other) as other, _lent(delta, True) as delta:
        sizes = {"size": _size_of(one), "delta_size": _size_of(delta)}
        job = Job(opcode=CREATE_DELTA, target=_SECOND, extra=_THIRD, **sizes)
        return _carried_out(_library.kazovuni_create_delta, job, [one, other], delta)


def apply_delta(delta, target):
    """Writes what a delta record says over a buffer of the length that it was made of."""
    with _lent(delta) as delta, _lent(target, True) as target:
        job = Job(opcode=APPLY_DELTA, target=_SECOND, size=_size_of(target), delta_size=_size_of(delta))
        return _carried_out(_library.kazovuni_apply_delta, job, [delta], target)


def submit_over(memory, descriptor):
    """Carries a job out over whole pages (a ctypes array, or one over a bytearray or a mapped file: from_buffer), with
    as much staging as it needs; answers its record's bytes. Addresses are places in the array."""
    record_bytes = RecordBytes()
    staging = _library.kazovuni_need(_given(descriptor))
    _expect(_library.kazovuni_submit_over(memory, ctypes.sizeof(memory), descriptor, staging, record_bytes))
    return record_bytes


class Engine:
    """An engine with an image of its own, whose pages are present or absent; a `with` frees it at its end."""

    def __init__(self, pages, staging):
        self._handle = Handle()
        _expect(_library.kazovuni_create(self._handle, pages, staging))

    def __enter__(self):
        return self

    def __exit__(self, *_):
        _library.kazovuni_free(self._handle)

    def bring(self, page, content):
        _expect(_library.kazovuni_bring(self._handle, page, Page.from_buffer_copy(content)))

    def read(self, address, length):
        content = (ctypes.c_uint8 * length)()
        _expect(_library.kazovuni_read(self._handle, address, content, length))
        return bytes(content)

    def submit(self, descriptor):
        record_bytes = RecordBytes()
        _expect(_library.kazovuni_submit(self._handle, _given(descriptor), record_bytes))
        return record_bytes
