"""Mounts whose server has a library of bench preloaded, and the end of a mount."""
import fcntl
import os
import subprocess

TOP = os.path.realpath(f"{os.path.dirname(os.path.realpath(__file__))}/..")
MOUNT = f"{TOP}/fusekeep-mount"


def make_engine(program, room, source, variable):
    """An engine whose servers have the library of this source preloaded, and, at the descriptor that this variable names, the file of the
    same name in the room."""
    subprocess.run(["gcc", "-O2", "-Wall", "-shared", "-fPIC", "-o", f"{room}/library.so", f"{TOP}/bench/{source}", "-ldl"], check=True)
    subprocess.run(["gcc", "-O2", "-static", "-o", f"{room}/engine", f"{TOP}/tests/mount/scripted.c"], check=True)
    with open(f"{room}/engine.bash", "w", encoding="ascii") as script:
        script.write(f'[ "$4" = --resume ] || LD_PRELOAD=$PRELOAD exec "{program}" "$@"\n'
                     f'{variable}=500 LD_PRELOAD={room}/library.so:$PRELOAD exec "{program}" "$@" 500<>"{room}/{variable}"\n')
    return f"{room}/engine"


def mount_with(engine, way, store, mount):
    """Makes a mount of this way by this engine."""
    os.mkdir(mount)
    subprocess.run([MOUNT, "-o", way, store, mount], env={**os.environ, "FUSEKEEP": engine}, check=True)


def unmount(store, mount):
    """Unmounts, and waits until no process has the store."""
    subprocess.run(["umount", mount], check=True)
    with open(f"{store}-mount", "rb") as lock:
        fcntl.flock(lock, fcntl.LOCK_EX)
