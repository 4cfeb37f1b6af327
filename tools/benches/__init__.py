"""What tools/bench is made of, one thing a module: `inputs` (made units, sites and scripts), `timing` (runs in turns), `table` (the
commands beside systemd-analyze), `site` (a row of site.toml), `filters` (what their programs cost), `foreign` (what
`check` takes for those of another maker), `hostile`, `step` and `view`. tools/worst uses `shapes` (random inputs) and `growth` (runs over
inputs of growing size).
"""
import os

TOP = os.path.dirname(os.path.dirname(os.path.dirname(os.path.abspath(__file__))))
CALLS = f"{TOP}/tables/x86-64/calls.txt"
DEBIAN = f"{TOP}/tables/debian/site.toml"
POLICY = f"{TOP}/tables/policy/systemd.json"
# The program: that of the checkout, or the build that LENTSHEEP_PROGRAM names.
PROGRAM = os.path.abspath(os.environ.get("LENTSHEEP_PROGRAM") or f"{TOP}/crates/sandbox_cli/out/sandbox_cli")
