#!/bin/bash
# A systemd of its own as the first process of new namespaces, for systemd.py. ROOM is an empty folder; FILES lie over
# the machine's files, which are read only below them; SHARED is the same folder inside.
#
#     unshare --mount --pid --fork --ipc --uts --kill-child systemd.sh ROOM FILES SHARED
set -e
room=$1 files=$2 shared=$3 root=$1/root
mount --make-rprivate /
mount -t tmpfs tmpfs "$room"
mkdir "$room/upper" "$room/work" "$room/groups" "$root"
mount -t overlay overlay -o "lowerdir=/,upperdir=$room/upper,workdir=$room/work" "$root"
# Of the machine's units none is started.
rm -rf "$root"/lib/systemd/system/*.wants "$root"/lib/systemd/system/*.requires "$root"/etc/systemd/system/* \
    "$root/lib/systemd/system-generators"
cp -a "$files/." "$root/"
mkdir -p "$root$shared"
mount -t proc proc "$root/proc"
mount -t sysfs -o ro sysfs "$root/sys"
for folder in run tmp dev; do mount -t tmpfs tmpfs "$root/$folder"; done
cp -a /dev/{null,zero,full,random,urandom,tty} "$root/dev/"
mkdir -p "$root/dev/pts" "$root/dev/shm" "$root$shared"
ln -s /proc/self/fd "$root/dev/fd"
ln -s pts/ptmx "$root/dev/ptmx"
mount --bind "$shared" "$root$shared"
mount -t cgroup2 none "$room/groups"
mkdir -p "$room/groups/viqeshor-$$"
echo 0 > "$room/groups/viqeshor-$$/cgroup.procs"
exec unshare --cgroup bash -c '
    mount -t cgroup2 none "$1/sys/fs/cgroup" && umount "$2"
    mkdir -p "$1/old" && cd "$1" && pivot_root . old && umount -l /old
    exec env -i container=other PATH=/usr/sbin:/usr/bin:/sbin:/bin /lib/systemd/systemd --system \
        --unit=trial.target --log-target=console --show-status=no --default-standard-output=null
' bash "$root" "$room/groups"
