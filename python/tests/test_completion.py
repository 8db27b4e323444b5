"""Completion in bash and zsh: words with a tab, typed at a terminal, become the words that the shell would run."""
import os
import pty
import shutil
import subprocess
import time
import unittest

from tests.shows import Shows

SECONDS = 60
CATCHING = "musmyrtle() { printf '%s\\n' \"$@\" > done.new; mv done.new done; }"
"""The command in the shell's place writes the words that it gets to a file."""
BASH_FIRST = ("bind 'set bell-style none'; bind '\"\\C-t\": insert-completions'", CATCHING, '. "{script}"')
ZSH_FIRST = ("autoload -Uz compinit; compinit -u -D", "autoload -Uz _all_matches; zle -C all complete-word _generic",
             "zstyle ':completion:all::::' completer _all_matches _complete",
             "zstyle ':completion:all:*' insert true", "bindkey '^I' complete-word", "bindkey '^T' all", CATCHING)
COMMANDS = ("annotate check commits completion decode design diff encode faults help import latency lint log man "
            "monitor page plan reads replay run signals")
ALL = "\x14"
"""The key that inserts all completions, and not only what they have in common."""
TYPED = (
    ("comp\t", "completion"), (f"co{ALL}", "commits completion"), (ALL, COMMANDS),
    (f"help co{ALL}", "help commits completion"), ("log --cha\t", "log --channel"),
    (f"log --channel {ALL}", "log --channel A AB B"), ("log --channel=B\t", "log --channel=B"),
    ("completion b\t", "completion bash"), ("man --h\t", "man --help"), ("check --j\t", "check --json"),
    ("check clu\t", "check cluster.toml"), ("check the\t", "check the~file.toml"),
    ("check fol\tin\t", "check folder/inner.toml"), ("lint cluster.toml sce\t", "lint cluster.toml scenario"),
    ("faults --html=pa\t", "faults --html=page.html"), ("faults --html pa\t", "faults --html page.html"),
    ("run cluster.toml scenario --cycles s\t", "run cluster.toml scenario --cycles s"),
    ("faults --host s\t", "faults --host s"), ("lint --guaranteed s\t s\t", "lint --guaranteed s s"),
)
"""Typed words after the command, and the words of the call that comes of them. A `~` here is a space in a word."""


class Completion(Shows):
    def setUp(self) -> None:
        super().setUp()
        for name in ("cluster.toml", "scenario", "page.html", "the file.toml", "Ab"):
            self.written(name, "")
        (self.folder / "folder").mkdir()
        self.written("folder/inner.toml", "")

    def typed(self, words: list[str], first: tuple[str, ...]) -> None:
        """Compares what an interactive shell makes of each typed line with what is expected."""
        above, below = pty.openpty()
        env = {"PATH": os.environ["PATH"], "HOME": str(self.folder), "INPUTRC": os.devnull, "TERM": "dumb",
               "ZDOTDIR": str(self.folder), "LC_ALL": "C.UTF-8"}
        with subprocess.Popen(words, stdin=below, stdout=below, stderr=below, cwd=self.folder, env=env,
                              start_new_session=True) as shell:
            os.close(below)
            try:
                for line in first:
                    os.write(above, f"{line}\n".encode())
                self.called(above, "musmyrtle ready")
                for line, expected in TYPED:
                    with self.subTest(line):
                        got = self.called(above, f"musmyrtle {line}")
                        self.assertEqual(got, [it.replace("~", " ") for it in expected.split(" ")])
            finally:
                shell.kill()
                os.close(above)

    def called(self, above: int, line: str) -> list[str]:
        """Types a line, and returns the words with which the command is called."""
        made = self.folder / "done"
        os.set_blocking(above, False)
        os.write(above, f"{line}\n".encode())
        end, shown = time.monotonic() + SECONDS, b""
        while not made.exists():
            try:
                shown += os.read(above, 65536)
            except BlockingIOError:
                time.sleep(0.01)
            self.assertLess(time.monotonic(), end, shown.decode(errors="replace"))
        found = made.read_text(encoding="utf-8").splitlines()
        made.unlink()
        return found

    @unittest.skipUnless(shutil.which("bash"), "there is no bash")
    def test_bash(self) -> None:
        script = self.written("script", self.printed("completion", "bash"))
        self.typed(["bash", "--norc", "--noprofile", "-i"], tuple(it.replace("{script}", script) for it in BASH_FIRST))

    @unittest.skipUnless(shutil.which("zsh"), "there is no zsh")
    def test_zsh_in_fpath(self) -> None:
        folder = self.folder / "functions"
        folder.mkdir()
        (folder / "_musmyrtle").write_text(self.printed("completion", "zsh"), encoding="utf-8")
        self.typed(["zsh", "-f", "-i"], (f"fpath=('{folder}' $fpath)", *ZSH_FIRST))

    @unittest.skipUnless(shutil.which("zsh"), "there is no zsh")
    def test_zsh_evaluated(self) -> None:
        script = self.written("script", self.printed("completion", "zsh"))
        self.typed(["zsh", "-f", "-i"], (*ZSH_FIRST, f'eval "$(cat \'{script}\')"'))


if __name__ == "__main__":
    unittest.main()
