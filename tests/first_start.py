"""A copy of `./iris` over empty crates, with a command `rt` that proves nothing and writes down how it is called."""

import os
import shutil
import subprocess

FAKE_RT = """#!/bin/sh
crate=${PWD##*/}
echo "begin $crate $1" >>"$CALLS"
sleep 0.05
echo "end $crate" >>"$CALLS"
echo "rt speaks of $crate"
if [ "$crate" = "$FAILS" ]; then exit 1; fi
if [ "$1" = run ]; then
  mkdir -p out
  printf '#!/bin/sh\\necho program "$@"\\nexit 5\\n' >out/iris
  chmod +x out/iris
fi
"""


def write(path, text):
    os.makedirs(os.path.dirname(path), exist_ok=True)
    with open(path, "w", encoding="utf-8") as file:
        file.write(text)


class FirstStart:
    def __init__(self, folder, root):
        self.folder, self.needs = folder, {}
        shutil.copy(os.path.join(root, "iris"), folder)
        shutil.copy(os.path.join(root, "crates.txt"), folder)
        with open(os.path.join(folder, "crates.txt"), encoding="utf-8") as file:
            for line in file:
                name, colon, needs = line.partition("#")[0].partition(":")
                if colon:
                    self.needs[name.split()[0]] = needs.split()
        for name in self.needs:
            write(self.source(name), "\n")
        write(os.path.join(folder, "bin", "rt"), FAKE_RT)
        os.chmod(os.path.join(folder, "bin", "rt"), 0o755)

    def source(self, crate):
        return os.path.join(self.folder, "crates", crate, "src", "lib.rt")

    def start(self, fails=""):
        path = os.path.join(self.folder, "bin") + ":" + os.environ["PATH"]
        env = dict(os.environ, PATH=path, CALLS=os.path.join(self.folder, "calls"), FAILS=fails)
        words = [os.path.join(self.folder, "iris"), "one", "two"]
        return subprocess.Popen(words, env=env, stdin=subprocess.DEVNULL, stdout=subprocess.PIPE, stderr=subprocess.PIPE)

    def run(self, fails=""):
        """The status, what stands on standard output, and what on standard error."""
        with self.start(fails) as child:
            out, err = child.communicate()
            return child.returncode, out.decode(), err.decode()

    def calls(self):
        """The calls of rt since the last look, each as a list of words."""
        path = os.path.join(self.folder, "calls")
        if not os.path.exists(path):
            return []
        with open(path, encoding="utf-8") as file:
            calls = [line.split() for line in file]
        os.remove(path)
        return calls

    def below(self, crate):
        """A crate and all of the repository that it stands on."""
        return {crate}.union(*(self.below(need) for need in self.needs[crate] if need in self.needs))
