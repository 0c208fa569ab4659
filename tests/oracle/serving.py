"""The oracle as a program that answers one line after the other."""
import subprocess


class Program:
    """An oracle that answers one line after the other."""

    def __init__(self, path):
        self.path = path
        self.process = subprocess.Popen([path, "serve"], stdin=subprocess.PIPE, stdout=subprocess.PIPE, text=True)

    def ask(self, command, data):
        """The lines of the answer."""
        text = data if isinstance(data, str) else data.hex() or "-"
        self.process.stdin.write(f"{command} {text}\n")
        self.process.stdin.flush()
        lines = []
        for line in self.process.stdout:
            if line == ".\n":
                return lines
            lines.append(line[:-1])
        raise SystemExit(f"{self.path} ended on {command} {text[:200]}")

    def close(self):
        self.process.stdin.close()
        self.process.wait()
