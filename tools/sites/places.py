"""Paths that a site has because of what they are, and not because a unit names them."""

# What the protections of systemd.exec(5) speak of, key by key as the manual has them.
PROTECTED = """
    /usr /boot /efi /etc /dev /proc /sys
    /home /root /run/user
    /tmp /var/tmp
    /dev/null /dev/zero /dev/full /dev/random /dev/urandom /dev/tty
    /proc/sys /proc/sysrq-trigger /proc/latency_stats /proc/acpi /proc/timer_stats /proc/fs /proc/irq
    /proc/kallsyms /proc/kcore
    /usr/lib/modules
    /proc/kmsg /dev/kmsg
    /sys/fs/cgroup
    /var/lib /run /var/cache /var/log
""".split()

# Of what they speak besides in a site with the key `systemd`.
PROTECTED_BY_KEY = """
    /bin /sbin /lib /lib64 /lib/modules
    /proc/apm /proc/asound /proc/bus /proc/mtrr /proc/scsi /proc/sys/kernel/hostname /proc/sys/kernel/domainname
    /sys/fs/bpf /sys/fs/selinux /sys/kernel/debug /sys/kernel/tracing
    /dev/ptmx /dev/pts /dev/shm /dev/mqueue /dev/hugepages
    /run/credentials
""".split()

# Secrets, what says who may do what, and ways to the kernel and to other services; `*` stands for any name.
SENSITIVE = """
    /etc/passwd /etc/group /etc/shadow /etc/shadow- /etc/gshadow /etc/gshadow- /etc/security/opasswd
    /etc/sudoers /etc/sudoers.d /etc/sudoers.d/* /etc/doas.conf /etc/pam.d /etc/polkit-1
    /etc/ssh /etc/ssh/sshd_config /etc/ssh/ssh_host_*
    /root/.ssh /root/.ssh/authorized_keys /root/.ssh/id_* /root/.gnupg /root/.netrc /root/.pgpass /root/.bash_history
    /home/* /home/*/.ssh /home/*/.ssh/authorized_keys /home/*/.ssh/id_* /home/*/.gnupg /home/*/.netrc /home/*/.pgpass
    /etc/ssl/private /etc/ssl/private/* /etc/letsencrypt /etc/krb5.keytab /etc/ipsec.secrets /etc/wireguard
    /etc/ppp/chap-secrets /etc/NetworkManager/system-connections /var/lib/systemd/credential.secret /etc/credstore
    /etc/machine-id /etc/hostname /etc/hosts /etc/resolv.conf /etc/nsswitch.conf /etc/fstab /etc/mtab
    /etc/ld.so.preload /etc/ld.so.conf /etc/ld.so.cache /etc/environment /etc/profile
    /etc/crontab /etc/cron.d /var/spool/cron /etc/systemd/system /run/systemd/system /usr/lib/systemd/system
    /etc/modprobe.d /etc/modules /etc/sysctl.d /etc/udev/rules.d /etc/apt /var/lib/dpkg/status
    /var/log/auth.log /var/log/journal /run/log/journal /var/log/wtmp /var/log/btmp
    /dev/mem /dev/kmem /dev/port /dev/log /dev/kvm /dev/fuse /dev/net/tun /dev/ptmx /dev/pts /dev/shm /dev/mapper/control
    /dev/sd* /dev/vd* /dev/nvme* /dev/loop-control /dev/input /dev/uinput /dev/tpm0 /dev/tpmrm0
    /proc/sys/kernel/core_pattern /proc/sys/kernel/modprobe /sys/kernel/debug /sys/kernel/security /sys/firmware/efi
""".split()

# What every running system has in the file systems that are mounted when it starts, by its kind.
RUNNING = {
    "dir": """
        /proc/acpi /proc/fs /proc/irq /proc/sys /sys /sys/fs /sys/fs/cgroup /sys/kernel /dev /dev/pts /dev/shm
        /run /run/lock /run/systemd /run/user /tmp
    """,
    "file": """
        /proc/kallsyms /proc/kcore /proc/kmsg /proc/sysrq-trigger
        /dev/full /dev/kmsg /dev/log /dev/null /dev/ptmx /dev/random /dev/tty /dev/urandom /dev/zero
    """,
}

# The same in a site with the key: systemd mounts these, and makes the last.
RUNNING_BY_KEY = {
    "dir": "/proc/bus /sys/fs/bpf /sys/kernel/debug /sys/kernel/tracing /dev/mqueue /dev/hugepages /run/credentials",
    "file": "/proc/sys/kernel/hostname /proc/sys/kernel/domainname",
}

# Where what stands comes and goes, so that folders below are no rows of their own.
PASSING = [b"/tmp", b"/var/tmp"]
