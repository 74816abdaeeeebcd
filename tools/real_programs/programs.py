"""The programs of tools/real: where each comes from, what it wants, how it is built and run, and what a run must have done."""
import bz2, dataclasses, lzma, os, random, socket, subprocess, sys
from typing import Callable, Optional

BESIDE = os.path.dirname(os.path.realpath(__file__))
INPUT_BYTES = 1 << 20


@dataclasses.dataclass
class Program:
    """One program. The words of `build` are for a shell in the folder of its sources, and know CC, CXX and BESIDE; those of `command`
    are for the folder of a run, in which the file `input` lies. `did_its_work` looks at that folder when the run has ended."""
    name: str
    package: str
    wants: tuple
    build: str
    command: Callable[[str], list]
    did_its_work: Callable[[str], bool]
    beside: Optional[Callable[[list], None]] = None
    patch: Optional[str] = None
    seeds: int = 1
    frees_in_use: Optional[bool] = None


def make_input(path):
    """A text of 1 MiB that is the same each time, and can be compressed."""
    chance = random.Random(7)
    words = [''.join(chance.choices('abcdefghijklmnopqrstuvwxyz', k=chance.randint(2, 9))) for _ in range(3000)]
    with open(path, 'w', encoding='ascii') as file:
        file.write(' '.join(chance.choices(words, k=INPUT_BYTES // 4))[:INPUT_BYTES])


def holds_input(name, opened):
    """Whether a file, once it is read through a decompressor, is the input."""
    def check(folder):
        with open(os.path.join(folder, 'input'), 'rb') as file, opened(os.path.join(folder, name)) as unpacked:
            return file.read() == unpacked.read()
    return check


def free_port():
    """The number of a port of this machine at which nobody listens."""
    with socket.socket() as listening:
        listening.bind(('127.0.0.1', 0))
        return listening.getsockname()[1]


def memcached_command(sources):
    """Without the threads that look through its lists in a loop, and with few, large chunks in a page, which are put into a list one by
    one: both would fill the recording."""
    return [sources + '/memcached', '-A', '-u', 'root', '-l', '127.0.0.1', '-p', str(free_port()), '-t', '3',
            '-o', 'no_lru_maintainer,no_lru_crawler', '-n', '16384', '-f', '4']


def memcached_clients(command):
    """Three clients and the shutdown, within a bounded time."""
    port = command[command.index('-p') + 1]
    subprocess.run([sys.executable, os.path.join(BESIDE, 'memcached_clients'), port], check=True, timeout=240)


# The copy of gnulib in lbzip2 is older than the C library, which it knows by this name.
LBZIP2_BUILD = 'CC=clang ./configure CPPFLAGS=-D_IO_ftrylockfile && make CC="$CC"'
# pbzip2 puts names right behind strings, which C++11 reads in another way.
PBZIP2_BUILD = 'make CC="$CC" CXX="$CXX -std=gnu++98" pbzip2'


def pbzip2_command(sources):
    """With blocks so large that the whole run is one window."""
    return [sources + '/pbzip2', '-k', '-p3', '-b3', '-1', 'input']


PROGRAMS = [
    Program('pbzip2', 'pbzip2', ('bzlib.h',), PBZIP2_BUILD, pbzip2_command, holds_input('input.bz2', bz2.open), seeds=3,
            frees_in_use=False),
    Program('pbzip2_unjoined', 'pbzip2', ('bzlib.h',), PBZIP2_BUILD, pbzip2_command, holds_input('input.bz2', bz2.open),
            patch='pbzip2_unjoined.patch', seeds=3, frees_in_use=True),
    Program('lbzip2', 'lbzip2', (), LBZIP2_BUILD, lambda sources: [sources + '/src/lbzip2', '-k', '-n3', '-1', 'input'],
            holds_input('input.bz2', bz2.open)),
    Program('pixz', 'pixz', ('lzma.h', 'archive.h', 'autoreconf', 'libtoolize'),
            './autogen.sh && CC=clang ./configure --without-manpage && make CC="$CC"',
            lambda sources: [sources + '/src/pixz', '-0', '-p', '3', 'input', 'input.xz'], holds_input('input.xz', lzma.open)),
    Program('leveldb', 'leveldb', ('cmake',),
            'CC="$CC" CXX="$CXX" cmake -B made -DLEVELDB_BUILD_TESTS=OFF -DLEVELDB_BUILD_BENCHMARKS=OFF -DHAVE_SNAPPY=OFF'
            ' && make -C made leveldb'
            ' && $CXX -std=c++11 -O2 -pthread -Iinclude -o leveldb_threads "$BESIDE/leveldb_threads.cc" made/libleveldb.a',
            lambda sources: [sources + '/leveldb_threads', 'database', '12'],
            lambda folder: os.path.exists(os.path.join(folder, 'database', 'CURRENT'))),
    Program('memcached', 'memcached', ('event.h',), 'CC=clang ./configure && make CC="$CC" memcached', memcached_command,
            lambda folder: True, beside=memcached_clients),
]
