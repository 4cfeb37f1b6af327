"""The profile by which the program judges: that of a version of systemd, or the base profile (docs/PROFILE.md). The site says which."""
from __future__ import annotations

from .program import Program
from .site_text import profile_of

BASE = "base"


def profile_named(site: str) -> str:
    """The name of the profile for the text of a site: `base`, `systemd 252` or `systemd 257`; empty where there is no site."""
    version = profile_of(site)
    return f"systemd {version}" if version else BASE if site else ""


def profile_in(program: Program) -> str:
    """The same of the site in the folder of a program."""
    return profile_named((program.read("site.toml") or b"").decode("utf-8", "replace"))


def in_words(profile: str) -> str:
    """A profile in words, as a screen has it."""
    return "base, since the site has no key systemd" if profile == BASE else profile


def in_a_sentence(profile: str) -> str:
    """A profile in a sentence, as a page has it."""
    return "Judged by the base profile, since the site has no key systemd." if profile == BASE else f"Judged by the rules of {profile}."
