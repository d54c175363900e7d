"""Three holes over eight packages of a JDK, at which scripts here and in tools/ ask a server."""
import os
import subprocess
import sys

sys.dont_write_bytecode = True
from first_page import TOP, Server

JDK = "/usr/lib/jvm/java-17-openjdk-amd64"
PACKAGES = "java.lang,java.io,java.util,java.awt,java.awt.event,java.text,javax.swing,javax.swing.text"
HOLES = {
    "BufferedReader": ("import java.io.*;\nimport java.util.*;\n", "String name, int size"),
    "JButton": ("import javax.swing.*;\nimport java.awt.*;\nimport java.awt.event.*;\n", "String text, JPanel panel"),
    "Comparator": ("import java.util.*;\nimport java.text.*;\n", "Locale locale, List list"),
}


def start_text(path, jdk):
    """Writes a start text of the public classes of the packages."""
    subprocess.run([os.path.join(TOP, "tools", "class-path"), "--public", "--package", PACKAGES, "-o", path, jdk], check=True)


def text_at(goal):
    """A text with a hole of this class, the byte at which it is, and its line and column."""
    imports, parameters = HOLES[goal]
    head = f"package use;\n{imports}class Use {{\n    static void go({parameters}) {{\n"
    line = f"        {goal} value = "
    return head + line + "\n    }\n}\n", len(head + line), {"line": head.count("\n"), "character": len(line)}


class Session(Server):
    """A server with the texts of the holes."""

    def worked(self):
        """The processor's seconds so far."""
        with open(f"/proc/{self.child.pid}/schedstat", encoding="utf-8") as source:
            return int(source.read().split()[0]) / 1e9

    def open(self, goal, text):
        document = {"uri": f"file:///Use{goal}.java", "languageId": "java", "version": 1, "text": text}
        self.notify("textDocument/didOpen", {"textDocument": document})

    def complete(self, goal, where):
        answer, took, worked = self.request("textDocument/completion", {"textDocument": {"uri": f"file:///Use{goal}.java"}, "position": where})
        return answer["result"], took, worked

    def command(self, name, **arguments):
        answer, took, worked = self.request("workspace/executeCommand", {"command": name, "arguments": [arguments]})
        return answer["result"], took, worked


def load():
    """The load of the machine, for a line under a table."""
    with open("/proc/loadavg", encoding="utf-8") as source:
        return f"Load: {' '.join(source.read().split()[:3])} on {os.cpu_count()} processors."
