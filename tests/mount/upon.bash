# Phases of tests/mount/run: other mounts upon a mount, whose servers are killed. Each runs in a folder of its own.

# Kills three servers, and looks at a path of another file system after each. Once a directory is made, the next server serves. A listing of
# the mount would renew what the kernel knows of its names.
survives() {
  local number
  for number in 1 2 3; do
    kill -KILL "$(ask --server store)" && mkdir "mnt/made-$number" || return 1
    expect "$1 is there after $number killed servers" "${@:2}" || return 1
  done
}

# A folder that is bound to a directory of the mount stays there.
bind_upon() {
  mkdir other && echo one >other/file && start store mnt log && mkdir mnt/place && mount --bind other mnt/place || return 1
  survives "the bound folder" grep -qx one mnt/place/file && unmount mnt/place && unmount_and_end mnt
}

tmpfs_upon() {
  start store mnt log && mkdir mnt/place && mount -t tmpfs none mnt/place && echo one >mnt/place/file || return 1
  survives "the tmpfs" grep -qx one mnt/place/file && unmount mnt/place && unmount_and_end mnt
}

# An overlay whose lower layer lies on the mount.
overlay_above() {
  mkdir room merged && mount -t tmpfs none room && mkdir room/upper room/work && start store mnt log && mkdir -p mnt/lower/deep || return 1
  echo one >mnt/lower/file && echo one >mnt/lower/deep/file || return 1
  mount -t overlay overlay -o "lowerdir=mnt/lower,upperdir=room/upper,workdir=room/work" merged && echo two >merged/other || return 1
  survives "the overlay" appends_to merged/other && expect "the lower layer is there" grep -qx one merged/deep/file || return 1
  expect "it has all lines" [ "$(xargs <merged/other)" = "two more more more" ] && umount merged room && unmount_and_end mnt
}

# An overlay whose upper layer lies on the mount. What is written into it is there. Such a mount must have attributes and whiteouts.
overlay_upon() {
  mkdir lower merged && echo one >lower/file && start store mnt log && mkdir mnt/upper mnt/work || return 1
  if ! mount -t overlay overlay -o "lowerdir=lower,upperdir=mnt/upper,workdir=mnt/work" merged 2>line; then
    unmount_and_end mnt && echo "overlay_upon: skipped, the mount lacks what an upper layer needs"
    return
  fi
  echo two >merged/other && survives "the overlay" appends_to merged/other || return 1
  expect "it has all lines" [ "$(xargs <merged/other)" = "two more more more" ] && umount merged && unmount_and_end mnt
}

appends_to() {
  grep -qx one merged/file && echo more >>"$1" && tail -n 1 "$1" | grep -qx more
}

can_overlay_upon() {
  grep -qw overlay /proc/filesystems || modprobe -n overlay 2>/dev/null
}
