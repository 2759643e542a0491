"""Which calls of Linux are followed, which can do no harm, and which may do it unseen.

A call that stands nowhere here is refused where it names a recorded file.
"""
from commands.record.calls import MAKES

# Calls that write no file, make no descriptor of one, and change no name.
HARMLESS = set(
    "access alarm arch_prctl connect epoll_ctl eventfd2 execveat exit exit_group faccessat faccessat2 fadvise64 "
    "fgetxattr flistxattr flock fstat fstat64 fstatfs "
    "getcwd getdents getdents64 getpeername getsockname getsockopt getxattr inotify_add_watch ioprio_set kcmp lgetxattr "
    "listen listxattr llistxattr lstat name_to_handle_at newfstatat pidfd_open pidfd_send_signal "
    "pipe pipe2 poll ppoll prctl pread64 preadv readahead readlink readlinkat recvfrom recvmmsg recvmsg select "
    "pselect6 sendmmsg sendmsg sendto shutdown signalfd4 socket socketpair stat stat64 statfs statx "
    "timerfd_settime umask wait4 waitid accept accept4 epoll_create epoll_create1 "
    "memfd_create timerfd_create inotify_init inotify_init1".split()
)
# Calls that may do it unseen, whichever descriptor they name.
UNSEEN = {
    "io_uring_setup": "what a ring writes isn't seen",
    "io_submit": "what it writes isn't followed",
    "chroot": "paths mean something else after it",
    "pivot_root": "paths mean something else after it",
    "mount": "paths mean something else after it",
    "move_mount": "paths mean something else after it",
    "umount": "paths mean something else after it",
    "umount2": "paths mean something else after it",
    "open_tree": "paths mean something else below what it opens",
    "fsmount": "paths mean something else below what it opens",
    "setns": "paths mean something else after it",
    "ptrace": "it may change the memory of others",
    "acct": "it may write a file unseen",
    "swapon": "it may write a file unseen",
}
MADE_APART = {"CLONE_UNTRACED": "strace doesn't follow it", "CLONE_NEWNS": "paths mean something else after it"}
# What may be asked of a recorded file by ioctl, and what changes nothing of it; FIOCLEX and FIONCLEX besides.
ASKED = {"TCGETS", "FIONREAD", "FIONBIO", "FIGETBSZ", "FS_IOC_GETFLAGS", "FS_IOC_FSGETXATTR", "FS_IOC_FIEMAP", "FS_IOC_GETVERSION"}
OPENS = ("open", "openat", "openat2", "creat")
WRITES = ("write", "writev", "pwrite64", "pwritev", "pwritev2")
READS = ("read", "readv")
SYNCS = ("fsync", "fdatasync", "sync", "syncfs")
RANGES = ("sync_file_range", "sync_file_range2")
# Calls that copy, and which of their words are the descriptor that is copied from, the place in it, and the same of what is copied to.
COPIES = {
    "copy_file_range": (0, 1, 2, 3),
    "splice": (0, 1, 2, 3),
    "sendfile": (1, 2, 0, None),
    "sendfile64": (1, 2, 0, None),
    "tee": (0, None, 1, None),
}
# Errors of a write after which nothing was written.
NOT_BEGUN = {"EAGAIN", "EINTR", "EBADF", "EINVAL", "EFBIG", "EOPNOTSUPP", "EFAULT", "ESPIPE", "EPERM", "ENOSPC", "EDQUOT", "EPIPE"}
# Errors of a sync that did nothing, since the descriptor can't be synced.
NOT_SYNCED = {"EBADF", "EINVAL", "EROFS"}
# Errors of a copy after which nothing was written.
NOT_COPIED = NOT_BEGUN | {"ENOSYS", "EXDEV", "ETXTBSY", "EISDIR", "EOVERFLOW"}
# Errors of fallocate after which nothing was reserved, and those of a change of names or sizes after which it isn't known what is there.
NOT_RESERVED = {"EOPNOTSUPP", "EBADF", "EINVAL", "ENODEV", "ESPIPE", "EPERM", "ETXTBSY", "EFBIG", "ENOSYS", "EISDIR"}
BROKEN = {"EIO", "EUCLEAN"}
# Flags of pwritev2 that are known.
RWF = {"RWF_HIPRI", "RWF_NOWAIT", "RWF_DSYNC", "RWF_SYNC", "RWF_APPEND"}
THROUGH = {"O_DSYNC", "O_SYNC", "__O_SYNC", "RWF_DSYNC", "RWF_SYNC"}
# Calls on a descriptor that change a file or its place.
MOVES = ("lseek", "_llseek", "ftruncate", "ftruncate64", "fallocate")
# What a file has besides its bytes, and the calls that change it.
PERMISSIONS = "permissions"
BESIDE = {
    PERMISSIONS: ("chmod", "fchmod", "fchmodat", "fchmodat2"),
    "owners": ("chown", "fchown", "lchown", "fchownat"),
    "times": ("utime", "utimes", "futimesat", "utimensat"),
    "attributes": ("setxattr", "lsetxattr", "fsetxattr", "removexattr", "lremovexattr", "fremovexattr"),
}
# Those that change a symbolic link itself, where their flags don't say it.
OF_LINKS = ("lchown", "lsetxattr", "lremovexattr")
# Errors of msync after which what it did is to count for nothing.
NOT_DONE = {"ENOMEM", "EBUSY", "EINVAL"}
# The calls that are followed, by what is done with them.
KINDS = {
    "open": OPENS,
    "write": WRITES,
    "read": READS,
    "preadv2": ("preadv2",),
    "copy": tuple(COPIES),
    "sync": SYNCS,
    "dup": ("dup", "dup2", "dup3"),
    "fcntl": ("fcntl", "fcntl64"),
    "ioctl": ("ioctl",),
    "close": ("close",),
    "close_range": ("close_range",),
    "execve": ("execve", "execveat"),
    "chdir": ("chdir", "fchdir"),
    "unshare": ("unshare",),
    "make": MAKES,
    "mmap": ("mmap", "mmap2", "old_mmap"),
    "munmap": ("munmap",),
    "mprotect": ("mprotect", "pkey_mprotect"),
    "mremap": ("mremap",),
    "msync": ("msync",),
    "madvise": ("madvise", "process_madvise"),
    "range": RANGES,
    "lseek": ("lseek", "_llseek"),
    "truncate": ("truncate", "truncate64", "ftruncate", "ftruncate64"),
    "fallocate": ("fallocate",),
    "unlink": ("unlink", "unlinkat"),
    "rmdir": ("rmdir",),
    "rename": ("rename", "renameat", "renameat2"),
    "link": ("link", "linkat", "symlink", "symlinkat"),
    "mkdir": ("mkdir", "mkdirat"),
    "mknod": ("mknod", "mknodat"),
    "bind": ("bind",),
    "beside": tuple(name for names in BESIDE.values() for name in names),
}
# Those of these that change names or sizes.
CHANGES = {name for kind in ("open", "truncate", "fallocate", "unlink", "rmdir", "rename", "link", "mkdir", "mknod", "bind") for name in KINDS[kind]}
