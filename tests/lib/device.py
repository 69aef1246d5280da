"""Runs the program on pipes, and makes stores for it."""
import fcntl
import os
import resource
import shutil
import subprocess
from concurrent.futures import ThreadPoolExecutor
from dataclasses import dataclass


@dataclass
class Ran:
    """The output lines of a run, its exit status, and its lines on standard error."""
    lines: list
    status: int
    err: list


@dataclass
class Served:
    """The packets that a run of `serve` wrote to its device, its exit status, and its lines on standard error."""
    packets: list
    status: int
    err: list


def cut_into(stream, sizes):
    """The pieces of a stream that have these sizes."""
    pieces = []
    begin = 0
    for size in sizes:
        pieces.append(stream[begin:begin + size])
        begin += size
    return pieces


def feed(end, pieces):
    """Writes to a pipe in packets; each read returns one."""
    try:
        for piece in pieces:
            os.write(end, piece)
    except BrokenPipeError:
        pass
    finally:
        os.close(end)


def run_program(words, stream, pieces, work):
    """Runs the program with the stream on standard input, from a file or in pieces."""
    with open(f"{work}/out", "w+b") as out, open(f"{work}/err", "w+b") as err, open(f"{work}/in", "w+b") as source:
        if pieces:
            begin, end = os.pipe2(os.O_DIRECT)
        else:
            source.write(stream)
            source.seek(0)
            begin, end = os.dup(source.fileno()), None
        child = subprocess.Popen(words, stdin=begin, stdout=out, stderr=err)
        os.close(begin)
        if end is not None:
            feed(end, cut_into(stream, pieces))
        status = child.wait()
        out.seek(0)
        err.seek(0)
        return Ran(out.read().decode().splitlines(), status, err.read().decode().splitlines())


def packets_in(begin):
    """All packets of a pipe that has no writer any more."""
    packets = []
    while packet := os.read(begin, resource.getpagesize()):
        packets.append(packet)
    os.close(begin)
    return packets


def run_on_device(words, pieces, work, room=None):
    """Runs the program between two pipes of packets, which stand for a device: a read returns one packet, and a write makes one. If it
    has room for so many packets alone, a write is refused once the pipe holds them."""
    begin, end = os.pipe2(os.O_DIRECT)
    taken, given = os.pipe2(os.O_DIRECT)
    if room:
        fcntl.fcntl(given, fcntl.F_SETPIPE_SZ, room * resource.getpagesize())
        os.set_blocking(given, False)
    with open(f"{work}/err", "w+b") as err, ThreadPoolExecutor(1) as reader:
        child = subprocess.Popen(words, stdin=begin, stdout=given, stderr=err)
        os.close(begin)
        os.close(given)
        packets = None if room else reader.submit(packets_in, taken)
        feed(end, pieces)
        status = child.wait()
        err.seek(0)
        return Served(packets_in(taken) if room else packets.result(), status, err.read().decode().splitlines())


def store_of(work):
    """The path of a new store, after removing those that were there."""
    for name in os.listdir(work):
        if name.startswith("store"):
            os.remove(f"{work}/{name}")
    return f"{work}/store"


def make_store(program, work, words=()):
    """Makes a new store in this folder, by a `serve` at second 0 without input. Further words give its profile and capacity."""
    run_on_device([program, "serve", "--db", store_of(work), "--fresh", *words, "--at", "0"], [], work)


def copy_store(work, name):
    """A folder of this name with a copy of the store and of the files beside it."""
    folder = f"{work}/{name}"
    os.mkdir(folder)
    for file in os.listdir(work):
        if file.startswith("store"):
            shutil.copy(f"{work}/{file}", f"{folder}/{file}")
    return folder
