"""Calls of the C library in child processes, for `hostile_sizes.py`: each on a thread of a small stack, its answer compared, its time taken."""
import ctypes
import multiprocessing
import os
import signal
import struct
import sys
import threading
import time

# how often as long a byte the largest may take; and the nanoseconds a byte below which that shows caches and copying alone
GROWTH, COPYING = 3, 2
RFC5280, RAW = 0, 1
OK, ROOM, OVERLENGTH, MALFORMED, FAILED, SET_DUPLICATE, ABSENT, REPEATED, FAULT = 0, -2, 1, 2, 3, 4, 6, 7, 8
# what a call left that fills in nothing, and what it shouldn't have left
KEPT, CHANGED = "the output as it was", "another output"


def lent(data):
    return ctypes.c_char_p(data), ctypes.c_size_t(len(data))


class Library:
    """The calls. Each answers its status and what it filled in; `spent` is how many nanoseconds of a processor the last one took."""

    def __init__(self, path):
        self.calls, self.spent = ctypes.CDLL(str(path)), 0

    def call(self, name, *arguments):
        function = self.calls[name]
        start = time.thread_time_ns()
        status = function(*arguments)
        self.spent = time.thread_time_ns() - start
        return status

    def check(self, name, data):
        return self.call(name, *lent(data)), KEPT

    def write(self, name, data, room, *front):
        written, out = ctypes.c_size_t(77), ctypes.create_string_buffer(max(room, 1))
        status = self.call(name, *front, *lent(data), out, ctypes.c_size_t(room), ctypes.byref(written))
        if status == OK:
            return status, ctypes.string_at(out, written.value)
        return status, written.value if status == ROOM else KEPT if written.value == 77 else CHANGED

    def look(self, name, form, *inputs):
        before = b"M" * 256
        out = ctypes.create_string_buffer(before, 256)
        status = self.call(name, *(part for data in inputs for part in lent(data)), out)
        if status == OK:
            return status, struct.unpack_from(form, out)
        return status, KEPT if out.raw == before else CHANGED

    def index(self, data, room):
        """The index of a list of entries."""
        before = [77] * room
        written, out = ctypes.c_size_t(77), (ctypes.c_uint32 * room)(*before)
        status = self.call("x509_crl_index", *lent(data), out, ctypes.c_size_t(room), ctypes.byref(written))
        if status == OK:
            return status, out[: written.value]
        return status, KEPT if out[:] == before and written.value == 77 else CHANGED

    def path(self, anchor, data, lens, moment):
        before = b"M" * 16
        out = ctypes.create_string_buffer(before, 16)
        ends = (ctypes.c_size_t * len(lens))(*lens)
        status = self.call("x509_path_check", *lent(anchor), *lent(data), ends, ctypes.c_size_t(len(lens)), ctypes.c_uint64(moment), out)
        if status == FAULT:
            return status, struct.unpack_from("QI", out)
        return status, KEPT if out.raw == before else CHANGED

    def revocation(self, certificate, data, signer, moment):
        """What a CRL says, with the name and the key of its signer behind it; also one without a next update."""
        before, (name, key) = b"M" * 32, signer
        out = ctypes.create_string_buffer(before, 32)
        whole, lens = data + name + key, (len(data), len(name), len(key))
        spans = [word for at, size in enumerate(lens) for word in (sum(lens[:at]), size)]
        given, settings = struct.pack("6QI4x", *spans, 1), struct.pack("2Q", moment, 1)
        status = self.call("x509_revocation_status", *lent(certificate), *lent(whole), given, ctypes.c_size_t(1), *lent(settings), out)
        if status == OK:
            return status, struct.unpack_from("2I2QI", out)
        return status, KEPT if out.raw == before else CHANGED


def checks(name):
    return lambda library, data: library.check(name, data)


def writes(name, room=lambda data: 4 * len(data) + 64):
    return lambda library, data: library.write(name, data, room(data))


def looks(name, form, *behind):
    return lambda library, data: library.look(name, form, data, *behind)


def reencodes(kind, profile=RAW, room=len):
    front = [*lent(kind), ctypes.c_uint32(profile)]
    return lambda library, data: library.write("x509_reencode", data, room(data), *front)


def keep_memory():
    """Lets the process keep what is given back, so that the best of some calls isn't about the pages that the system hands out."""
    adjust = getattr(ctypes.CDLL(None), "mallopt", None)
    if adjust is not None:
        # in malloc.h of glibc: M_MMAP_MAX, M_ARENA_MAX, M_TRIM_THRESHOLD
        for parameter, value in ((-4, 0), (-8, 1), (-1, 1 << 30)):
            adjust(parameter, value)


def in_child(work):
    """What the work answers on a thread of a small stack in a child process; or nothing, and how the child ended."""
    context = multiprocessing.get_context("fork")
    answer, says = context.Pipe(duplex=False)

    def run():
        answers = []
        thread = threading.Thread(target=lambda: answers.append(work()))
        thread.start()
        thread.join()
        says.send(answers)

    child = context.Process(target=run)
    child.start()
    says.close()
    try:
        answers = answer.recv()
    except EOFError:
        answers = []
    child.join()
    if child.exitcode < 0:
        return 0, f"ended by {signal.Signals(-child.exitcode).name}"
    return (answers or [(0, "no answer")])[0]


def told(status, left):
    return f"status {status}, {f'{len(left):,} bytes' if isinstance(left, bytes) else left}"


def fault_of(answer, wanted):
    if answer == wanted:
        return None
    fault = f"{told(*answer)}; wanted: {told(*wanted)}"
    if isinstance(answer[1], bytes) and isinstance(wanted[1], bytes):
        fault += f"; other from place {len(os.path.commonprefix([answer[1], wanted[1]])):,} on"
    return fault


def best_of(times, library, ask, data, wanted):
    """The least nanoseconds of so many calls, and what is wrong with an answer."""
    spent = []
    for _ in range(times):
        fault = fault_of(ask(library, data), wanted)
        spent.append(library.spent)
        if fault:
            break
    return min(spent), fault


class Trial:
    def __init__(self, library):
        self.library, self.faults, self.asked, self.growth = library, [], 0, (0, "")

    def ask(self, what, call, data, wanted, times=1):
        self.asked += times
        spent, fault = in_child(lambda: best_of(times, self.library, call, data, wanted))
        if fault:
            self.faults.append(f"{what}: {fault}")
        return spent

    def grow(self, what, sizes, make, call, wanted):
        """Asks for inputs of growing sizes, and prints a row for each."""
        asked, times = [], []
        for size in sizes:
            data = make(size)
            asked.append((f"{what}, {size:,}", call, data, wanted(size, data), 3))
            spent = self.ask(*asked[-1])
            times.append(spent / len(data))
            print(f"| {what} | {size:,} | {len(data):,} | {spent / 1e6:.3f} | {times[-1]:.1f} |", flush=True)
        self.compare(what, asked, times)

    def compare(self, what, asked, times):
        """Compares the time a byte of the largest with that of a tenth of it; asks for both again where it has grown too much."""
        asked, times = asked[-2:], times[-2:]
        for _ in range(2):
            if times[1] > max(GROWTH * times[0], COPYING):
                times = [min(least, self.ask(*it) / len(it[2])) for it, least in zip(asked, times)]
        if times[1] <= COPYING:
            return
        growth = times[1] / times[0]
        self.growth = max(self.growth, (growth, what))
        if growth > GROWTH:
            self.faults.append(f"{what}: {growth:.1f} times as long a byte at the largest size as at a tenth of it")

    def end(self):
        """Tells what came out, and ends the program."""
        ratio, what = self.growth
        print(f"{self.asked:,} calls; the time a byte grew most, to {ratio:.2f} times, of {what}")
        print(f"{len(self.faults)} faults")
        for fault in self.faults:
            print(fault)
        sys.exit(1 if self.faults else 0)
