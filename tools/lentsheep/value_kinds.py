"""The values that systemd reads of keys with a simple form: booleans, fixed words, numbers, sizes and time spans.

`unread_value(section, key, value)` says why systemd ignores a value. The words are those of systemd.exec(5), systemd.service(5),
systemd.kill(5), systemd.resource-control(5), systemd.unit(5) and systemd.time(7) of 252 and 257; a value that either version reads
counts as read.
"""
from __future__ import annotations

import re

from .nearest import nearest
from .unit_text import FALSE, TRUE

_BOOLEANS = {
    "Service": frozenset(
        """
        BlockIOAccounting CPUAccounting CPUSchedulingResetOnFork CoredumpReceive DynamicUser GuessMainPID IOAccounting IPAccounting
        IgnoreSIGPIPE LockPersonality MemoryAccounting MemoryDenyWriteExecute MemoryKSM MountAPIVFS NoNewPrivileges NonBlocking
        PermissionsStartOnly PrivateDevices PrivateIPC PrivateMounts PrivateNetwork PrivatePIDs ProtectClock ProtectHostname
        ProtectKernelLogs ProtectKernelModules ProtectKernelTunables RemainAfterExit RemoveIPC RestrictRealtime RestrictSUIDSGID
        RootDirectoryStartOnly RootEphemeral SendSIGHUP SendSIGKILL SetLoginEnvironment SyslogLevelPrefix TTYReset TTYVHangup
        TTYVTDisallocate TasksAccounting
        """.split()
    ),
    "Unit": frozenset(
        """
        AllowIsolate DefaultDependencies IgnoreOnIsolate RefuseManualStart RefuseManualStop StopWhenUnneeded SurviveFinalKillSignal
        """.split()
    ),
}
_ACTIONS = """
    none reboot reboot-force reboot-immediate poweroff poweroff-force poweroff-immediate exit exit-force soft-reboot soft-reboot-force
    kexec kexec-force halt halt-force halt-immediate
"""
_LEVELS = "emerg alert crit err warning notice info debug 0 1 2 3 4 5 6 7"
_OUTPUTS = "inherit null tty journal kmsg journal+console kmsg+console syslog syslog+console socket"
_WORDS = {
    "CPUSchedulingPolicy": "other batch idle fifo rr",
    "CollectMode": "inactive inactive-or-failed",
    "DevicePolicy": "auto closed strict",
    "ExitType": "main cgroup",
    "FailureAction": _ACTIONS,
    "FileDescriptorStorePreserve": "yes no restart",
    "IOSchedulingClass": "none realtime best-effort idle 0 1 2 3",
    "KeyringMode": "inherit private shared",
    "KillMode": "control-group process mixed none",
    "LogLevelMax": _LEVELS,
    "ManagedOOMMemoryPressure": "auto kill",
    "ManagedOOMPreference": "none avoid omit",
    "ManagedOOMSwap": "auto kill",
    "NotifyAccess": "none main exec all",
    "OOMPolicy": "continue stop kill",
    "PrivateTmp": "yes no disconnected",
    "ProcSubset": "all pid",
    "ProtectControlGroups": "yes no private strict",
    "ProtectHome": "yes no read-only tmpfs",
    "ProtectProc": "noaccess invisible ptraceable default",
    "ProtectSystem": "yes no full strict",
    "Restart": "no always on-success on-failure on-abnormal on-abort on-watchdog",
    "RestartMode": "normal direct debug",
    "RuntimeDirectoryPreserve": "yes no restart",
    "StandardError": _OUTPUTS,
    "StandardInput": "null tty tty-force tty-fail data socket",
    "StandardOutput": _OUTPUTS,
    "StartLimitAction": _ACTIONS,
    "SuccessAction": _ACTIONS,
    "SyslogLevel": _LEVELS,
    "TimeoutStartFailureMode": "terminate abort kill",
    "TimeoutStopFailureMode": "terminate abort kill",
    "Type": "simple exec forking oneshot dbus notify notify-reload idle",
    "UtmpMode": "init login user",
}
# Keys of fixed words that also take a boolean, or a word and what follows its colon.
_OR_BOOLEAN = frozenset(
    "FileDescriptorStorePreserve PrivateTmp ProtectControlGroups ProtectHome ProtectSystem RuntimeDirectoryPreserve".split()
)
_WITH_NAME = {
    "StandardInput": ("fd", "file"), "StandardOutput": ("fd", "file", "append", "truncate"), "StandardError": ("fd", "file", "append", "truncate"),
}  # fmt: skip
# Keys of sizes and limits, each with the form of its value and what is said of it.
_SIZE = r"\d+(?:\.\d+)?[KMGTPE]?"
_LIMIT = rf"(?:infinity|[+-]?\d+|{_SIZE}|\d+ ?(?:us|ms|s|min|h|d|w)?)"
_FORMS = {
    **dict.fromkeys(
        "MemoryHigh MemoryLow MemoryMax MemoryMin MemorySwapMax MemoryZSwapMax".split(),
        (rf"infinity|{_SIZE}|\d+(?:\.\d+)?%", "it takes a size, as 512M, a percentage or infinity"),
    ),
    **dict.fromkeys(
        """
        LimitAS LimitCORE LimitCPU LimitDATA LimitFSIZE LimitLOCKS LimitMEMLOCK LimitMSGQUEUE LimitNICE LimitNOFILE LimitNPROC LimitRSS
        LimitRTPRIO LimitRTTIME LimitSIGPENDING LimitSTACK
        """.split(),
        (rf"{_LIMIT}(?::{_LIMIT})?", "it takes a number, SOFT:HARD or infinity"),
    ),
    "TasksMax": (r"infinity|\d+[KMGTPE]?|\d+(?:\.\d+)?%", "it takes a number, a percentage or infinity"),
    "CPUQuota": (r"\d+(?:\.\d+)?%", "it takes a percentage, as 20%"),
    "UMask": ("0*[0-7]{1,4}", "it takes up to four octal digits"),
}  # fmt: skip
_RANGES = {"CPUSchedulingPriority": (1, 99), "Nice": (-20, 19), "OOMScoreAdjust": (-1000, 1000)}
_SPANS = frozenset(
    """
    CPUQuotaPeriodSec JobRunningTimeoutSec JobTimeoutSec LogRateLimitIntervalSec RestartMaxDelaySec RestartSec RuntimeMaxSec
    RuntimeRandomizedExtraSec StartLimitInterval StartLimitIntervalSec TimeoutAbortSec TimeoutCleanSec TimeoutSec TimeoutStartSec
    TimeoutStopSec WatchdogSec
    """.split()
)
# systemd.time(7): a number and a unit, several times; seconds where there is no unit.
_UNITS = """
    usec us µs μs msec ms seconds second sec s minutes minute min months month M m hours hour hr h days day d weeks week w years year y
"""
_SPAN = re.compile(rf"(?:\d+(?:\.\d*)?|\.\d+)\s*(?:{'|'.join(_UNITS.split())})?(?:\s*(?:\d+(?:\.\d*)?|\.\d+)\s*(?:{'|'.join(_UNITS.split())})?)*")


def unread_value(section: str, key: str, value: str) -> str:
    """Says why systemd ignores this value; empty if it reads the value or this table does not have the key."""
    if not value or re.search("%[A-Za-z%]", value):
        return ""
    if key in _BOOLEANS.get(section, ()):
        return "" if value.lower() in TRUE | FALSE else "it takes yes or no"
    if key in _WORDS:
        return _wrong_word(key, value)
    if key in _RANGES:
        least, most = _RANGES[key]
        is_read = re.fullmatch(r"[+-]?\d+", value) is not None and least <= int(value) <= most
        return "" if is_read else f"it takes a number from {least} to {most}"
    if key in _FORMS:
        form, what = _FORMS[key]
        return "" if re.fullmatch(form, value) else what
    if key in _SPANS:
        return "" if value == "infinity" or _SPAN.fullmatch(value) else "it takes a time span, as 5s or 1min 30s"
    return ""


def _wrong_word(key: str, value: str) -> str:
    words = _WORDS[key].split()
    if value in words or key in _OR_BOOLEAN and value.lower() in TRUE | FALSE:
        return ""
    if value.partition(":")[0] in _WITH_NAME.get(key, ()):
        return ""
    meant = nearest(value, words)
    return f"did you mean {meant}?" if meant else f"it takes {', '.join(words[:-1])} or {words[-1]}"
