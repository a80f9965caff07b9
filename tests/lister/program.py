"""Running a program of the bench, the lister or the explainer: on a whole input, on one that is fed no further than each piece of
text needs, and where a write fails. What is due is what the model that is handed in says: `listing` and `moments`."""
import fcntl
import os
import platform
import select
import shutil
import socket
import struct
import subprocess
import tempfile
import termios
import time

PATIENCE = 20.0


def command(program):
    """The words that start a program, which is compiled for x86-64: on another processor an emulator runs it, the kit's
    own where it has one, on the kit's C library."""
    program = os.path.abspath(program)
    if platform.machine() == 'x86_64':
        return [program]
    kit = os.environ.get('RATTLE_HOME') or os.path.dirname(os.path.dirname(os.path.realpath(shutil.which('rt'))))
    tools = os.path.join(kit, 'on', platform.machine(), 'toolchain')
    emulator = os.path.join(tools, 'bin', 'qemu-x86_64')
    if not os.path.exists(emulator):
        emulator, tools = shutil.which('qemu-x86_64') or 'qemu-x86_64', os.path.join(kit, 'toolchain')
    libraries = os.path.join(tools, 'lib')
    return [emulator, os.path.join(libraries, 'ld-linux-x86-64.so.2'), '--library-path', libraries, program]


def ran(words, out, **given):
    """What is wrong with how the program ends on what it is given, or None; and what it printed, where `out` is a pipe."""
    try:
        done = subprocess.run(words, stdout=out, timeout=3 * PATIENCE, **given)
    except subprocess.TimeoutExpired:
        return 'it does not end', b''
    return f'it died by signal {-done.returncode}' if done.returncode < 0 else None, done.stdout


def whole(words, model, data):
    """What is wrong with what the program prints of this input, or None."""
    wrong, got = ran(words, subprocess.PIPE, input=data)
    return wrong or differ(model.listing(data), got)


def at_once(words, model, data):
    """The same, where all of it must come in one write, and no more be read than it needs. The input is a file, which keeps how
    far it was read; the output is a socket of messages, which keeps one write from the next."""
    theirs, ours = socket.socketpair(socket.AF_UNIX, socket.SOCK_SEQPACKET)
    with theirs, ours, tempfile.TemporaryFile(buffering=0) as file:
        file.write(data)
        file.seek(0)
        wrong, _ = ran(words, ours, stdin=file)
        ours.close()
        writes = list(iter(lambda: theirs.recv(65536), b''))
        read = file.tell()
    wrong = wrong or differ(model.listing(data), b''.join(writes))
    if wrong:
        return wrong
    if len(writes) != 1:
        return f'it comes in {len(writes)} writes'
    taken = model.moments(data)[-1][0]
    return None if read == taken else f'{read} bytes of input were read, and {taken} are needed'


def unwritten(words, data):
    """What is wrong with how the program ends where nothing can be written, or None."""
    with open('/dev/full', 'wb') as full:
        wrong, _ = ran(words, full, input=data)
    return wrong and 'where nothing can be written, ' + wrong


def differ(due, got):
    if due == got:
        return None
    at = next((i for i, (a, b) in enumerate(zip(due, got)) if a != b), min(len(due), len(got)))
    return f'at byte {at}: due {due[at:at + 60]!r}, printed {got[at:at + 60]!r}'


def at_each_moment(words, model, data, drip=False):
    """The same, where each piece of text must come while the input stays open, and nothing after the last."""
    with subprocess.Popen(words, stdin=subprocess.PIPE, stdout=subprocess.PIPE, bufsize=0) as p:
        try:
            return fed(p, model, data, drip)
        finally:
            if p.poll() is None:
                p.kill()


def fed(p, model, data, drip):
    sent = 0
    for taken, ended, text in model.moments(data):
        feed(p, data[sent:taken], drip)
        sent = taken
        if ended:
            p.stdin.close()
        wrong = differ(text, printed(p, len(text)))
        if wrong:
            return f'with {taken} bytes of input, ' + wrong
    more = printed(p, 1)
    if more:
        return f'it prints on: {more!r}'
    try:
        status = p.wait(PATIENCE)
    except subprocess.TimeoutExpired:
        return 'it does not stop while its input stays open'
    return f'it died by signal {-status}' if status < 0 else None


def feed(p, data, drip):
    """All of data, or as much as a program that stops early takes; in drips, so that single reads come up short."""
    try:
        for i in range(0, len(data), 1 if drip else max(1, len(data))):
            p.stdin.write(data[i:i + 1] if drip else data)
            if drip:
                time.sleep(0.0005)
    except BrokenPipeError:
        pass


def printed(p, n):
    """n bytes of what it prints, or fewer where it ends or falls silent."""
    got, until = b'', time.monotonic() + PATIENCE
    while len(got) < n and time.monotonic() < until:
        ready, _, _ = select.select([p.stdout], [], [], max(0.0, until - time.monotonic()))
        if not ready:
            break
        some = os.read(p.stdout.fileno(), n - len(got))
        if not some:
            break
        got += some
    return got


def cut_off(words, model, data):
    """What is wrong with what it prints where a write fails for a while, or None: it must be a beginning of what is due."""
    theirs, ours = os.pipe()
    room = fcntl.fcntl(ours, fcntl.F_SETPIPE_SZ, 4096)
    os.set_blocking(ours, False)
    due = model.listing(data)
    with subprocess.Popen(words, stdin=subprocess.PIPE, stdout=ours, bufsize=0) as p:
        os.close(ours)
        try:
            sent = told = 0
            for taken, _, text in model.moments(data):
                feed(p, data[sent:taken], False)
                sent, told = taken, told + len(text)
                if told > 2 * room:
                    break
            read_or_ended(p)
            got = os.read(theirs, room)
            feed(p, data[sent:], False)
            p.stdin.close()
            with os.fdopen(theirs, 'rb') as rest:
                got += rest.read()
            if p.wait(PATIENCE) < 0:
                return f'it died by signal {-p.returncode}'
        finally:
            if p.poll() is None:
                p.kill()
    if told <= 2 * room or got == due:
        return 'no write failed'
    return None if due.startswith(got) else 'where a write failed, ' + differ(due, got)


def read_or_ended(p):
    """Until all that was fed has been read and its text tried, or the program has ended."""
    until = time.monotonic() + PATIENCE
    while p.poll() is None and time.monotonic() < until:
        unread = struct.unpack('i', fcntl.ioctl(p.stdin.fileno(), termios.FIONREAD, b'\0\0\0\0'))[0]
        time.sleep(0.2)
        if unread == 0:
            break
