"""The unrelated interpreter's own tests, and the comparison with it."""
from harness import TOP, live, run


def check(checks, _):
    checks.part("the interpreter's tests")
    ended = run(["cargo", "test", "--release", "--quiet"], cwd=TOP / "compare/interpreter", env={"CARGO_TARGET_DIR": str(TOP / "compare/target")})
    ran = sum(int(line.split()[3]) for line in ended.stdout.splitlines() if line.startswith("test result: ok."))
    checks.check(f"the interpreter passes its {ran} tests", ended.returncode == 0 and ran > 0, ended.stdout + ended.stderr)
    checks.part("compare/run")
    for words in (["foo"], ["image"], ["image", "x"], ["writes", "-1"], ["rates"], ["rates", "x"], ["hex"], ["hex", "x"], ["hex", "-1"], ["1", "2"], [""], ["99999999999999999999"]):
        ended = run([TOP / "compare/run", *words])
        told = "usage: compare/run" in ended.stderr and not ended.stdout
        checks.check(f"compare/run {' '.join(words)!r}: usage, status 2", ended.returncode == 2 and told, f"{ended.returncode}\n{ended.stdout}{ended.stderr}")
    checks.check("compare/run: no difference", live([TOP / "compare/run"]) == 0)
