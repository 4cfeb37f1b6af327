"""The partings that the key `systemd` of a site ends: written by tools/profile-tables from docs/PROFILE.md."""
from __future__ import annotations

#: By their names.
FOLLOWED = frozenset(
    """
    api-noexec
    beaten
    capability-words
    clone3
    credentials-hidden
    device-folders
    device-programs
    devices-read-only
    disconnected-tmp
    families-allow-bits
    families-deny-bits
    families-none
    family-names
    flags-apart
    folders-open
    folders-shown
    home-tmpfs
    hostname-files
    io-uring
    linked-folders
    mdwe-prctl
    namespace-lines
    newer-values
    nnp-from-filters
    nnp-from-more
    nosuid-exec
    old-names-close
    old-names-open
    other-calls
    personality-question
    private-folders
    run-writable
    sched-setattr
    socketpair
    strict-homes
    suid-newer-calls
    sys-writable
    tmpfile-bits
    tunables-cgroup
    tunables-more
    write-filter
    """.split()
)
