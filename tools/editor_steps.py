"""What tools/try-editors asks of an editor, step by step."""
import contextlib
import os
import re
import shutil
import stat
import subprocess

from editor_drivers import OPTIONS, TOP, Failure, wait_for

USE = """package app;

import java.io.*;
import java.util.*;

class Use {
    static void go(String näme, InputStream body, InputStream sig, List<String> lines) throws Exception {
        Reader first = @;
        BufferedReader second = @;
        SequenceInputStream third = @;
        Iterator fourth = @;
        List<String> fifth = @;
        Object sixth = @;
    }
}
"""
# the variable of a hole's line, and an expression of weight below 1,100 that the first page is to have there
HOLES = [("first", "Notes.open(näme)"), ("second", "new BufferedReader(first)"), ("third", "new SequenceInputStream(body, sig)"),
         ("fourth", "lines.iterator()"), ("fifth", "Notes.all()")]
# the kit's command, in place of which nothing is proved: it waits for a file, and then puts the program where it is looked for
STAND_IN = """#!/bin/sh
echo $$ >> "{folder}/begun"
while [ -d "{folder}" ] && [ ! -e "{folder}/go" ]; do sleep 0.1; done
if [ "$1" = run ]; then mkdir -p out && ln -sf "{program}" out/insynthd; fi
"""


class Steps:
    """Runs steps, prints a line for each, and counts them."""

    def __init__(self):
        self.passed = self.failed = 0

    def step(self, title, work):
        try:
            note = work()
            self.passed += 1
            print(f"passed  {title}{f': {note}' if note else ''}", flush=True)
            return True
        except (Failure, AssertionError, OSError, subprocess.SubprocessError) as fault:
            self.failed += 1
            print(f"FAILED  {title}: {fault}", flush=True)
            return False


def write(path, text, encoding="utf-8"):
    with open(path, "w", encoding=encoding) as sink:
        sink.write(text)
    return path


# ---- at the holes of one file

def line_of(text, variable):
    return next(number for number, it in enumerate(text.splitlines(), 1) if f" {variable} =" in it)


def take_at(editor, variable, wanted):
    line = line_of(USE, variable)
    menu = editor.ask(line)
    texts = [text for _, text in menu]
    if wanted not in texts:
        raise Failure(f"{wanted} isn't among {texts}")
    if [weight for weight, _ in menu] != sorted(weight for weight, _ in menu):
        raise Failure(f"the weights don't rise: {menu}")
    editor.take(texts.index(wanted))
    expected = USE.splitlines()[line - 1].replace("@", wanted)
    wait_for(f"the line {expected!r}, it is {editor.text().splitlines()[line - 1]!r}", lambda: editor.text().splitlines()[line - 1] == expected, 10)
    return f"{wanted}, {texts.index(wanted) + 1} of {len(menu)}"


def second_page(editor):
    first = editor.ask(line_of(USE, "sixth"))
    second = editor.next_page(first)
    if len(first) != OPTIONS["count"] or len(second) != OPTIONS["count"]:
        raise Failure(f"pages of {len(first)} and {len(second)} expressions, where {OPTIONS['count']} are set")
    if set(second) & set(first) or second[0][0] < first[-1][0]:
        raise Failure(f"the second page {second} doesn't go on from {first}")
    editor.leave()
    return f"{len(first)} and {len(second)} expressions, weights {first[0][0]} to {second[-1][0]}"


def undone(editor, keys, before):
    """Makes one edit, and takes it back."""
    editor.press(keys)
    wait_for(f"a change by {keys!r}", lambda: editor.text() != before)
    for _ in range(5):
        editor.press(editor.undo)
        with contextlib.suppress(Failure):
            return wait_for("the text as it was", lambda: editor.text() == before, 3)
    raise Failure(f"after {keys!r} and its undoing the text is {editor.text()!r}")


def end_of_file(editor):
    """Edits that touch the last line or all lines, each undone; then the server is to have the editor's text."""
    before = editor.text()
    for keys in editor.edits_at_end:
        undone(editor, keys, before)
    editor.ask(line_of(USE, "sixth"))
    editor.leave()
    lines = [it.rstrip() for it in editor.text().splitlines()]
    if lines not in [[it.rstrip() for it in text.splitlines()] for text in editor.texts()]:
        raise Failure(f"the server has {editor.texts()}, the editor {editor.text()!r}")
    return f"{len(editor.edits_at_end)} edits"


def no_hole(editor):
    """Asks where no value is about to be written: a line says so."""
    editor.ask_at(1)
    wait_for("a line that says so", lambda: "insynth: no hole here" in editor.shown())
    editor.press(editor.rest)


def another_file(editor, name, head, encoding):
    text = head + USE.replace("@", "").replace("class Use", "class " + name[:-5])
    editor.open_another(write(os.path.join(editor.folder, name), text, encoding))
    menu = editor.ask(line_of(text, "first"))
    editor.leave()
    assert HOLES[0][1] in [text for _, text in menu], f"{HOLES[0][1]} isn't in {menu}"


def beside_another(editor, other, path):
    """Opens the editor's file in a second editor, with a server of its own: both go on."""
    other.open(path)
    line = line_of(USE, "sixth")
    menus = []
    for it in (editor, other, editor):
        menus.append(it.ask(line))
        it.leave()
    quit_editor(other)
    menus.append(editor.ask(line))
    editor.leave()
    assert menus[0] == menus[2] == menus[3], f"the menu was {menus[0]}, then {menus[2]} and {menus[3]}"
    assert menus[1] == menus[0], f"the second editor has {menus[1]}, the first one {menus[0]}"
    assert not other.refusals(), f"refusals: {other.refusals()}"


# ---- the end

def quit_editor(editor):
    editor.quit()
    wait_for("the editor's end", editor.ended, 20)
    code = wait_for("the server's end", lambda: editor.messages("end"), 20)
    assert code == [0], f"the server ended with {code}"


def no_refusal(editor):
    cursors = [it["result"]["insynth"]["cursor"] for it in editor.messages("out") if isinstance(it.get("result"), dict) and "insynth" in it["result"]]
    closed = [it["params"]["arguments"][0]["cursor"] for it in editor.messages("in") if it.get("params") and it["params"].get("command") == "insynth.close"]
    options = editor.messages("in")[0]["params"]["initializationOptions"]
    assert options == OPTIONS, f"the server was told {options}, the settings are {OPTIONS}"
    assert not editor.refusals(), f"refusals: {editor.refusals()}"
    assert not editor.own_log(), f"the editor's log: {editor.own_log()}"
    assert set(cursors) == set(closed), f"cursors {sorted(set(cursors) - set(closed))} weren't closed"
    return f"{len(editor.messages('in'))} messages, {len(set(cursors))} lists, all closed"


def killed(editor, path):
    """Kills the editor as soon as the server has its question."""
    editor.open(path)
    asked = len(editor.messages("in"))
    editor.ask_at(line_of(USE, "first"))
    wait_for("a question", lambda: len(editor.messages("in")) > asked)
    editor.kill()
    code = wait_for("the server's end", lambda: editor.messages("end"), 20)
    assert code in ([1], [5]), f"the server ended with {code}, which is to be 1 or 5"
    return f"status {code[0]}"


# ---- when nothing comes

def logged(editor, pattern):
    """Opens the log by its command until it has the pattern."""
    log = ""
    try:
        def found():
            nonlocal log
            log = editor.log_text()
            return re.search(pattern, log)
        return wait_for(pattern, found)
    except Failure as fault:
        raise Failure(f"{fault} in the log {log!r}") from fault


def menu_at_last(editor, line, *last):
    """Asks until there is a menu, as a user does while the server is starting. The menu."""
    for _ in range(10):
        editor.ask_at(line, *last)
        with contextlib.suppress(Failure):
            menu = wait_for("a menu", editor.menu, 20)
            editor.leave()
            return menu
    raise Failure(f"no menu; said was {editor.said()!r}")


def refused_start(editor, path):
    """That a start text is refused is said and stands in the log; once it is mended, the server is started anew."""
    with open(editor.start, encoding="utf-8") as source:
        right = source.read()
    editor.start = write(editor.own("start.txt"), path + "\n")  # no class file
    editor.open(path, starts=False)
    editor.ask_at(line_of(USE, "first"))
    wait_for("a line that says why", lambda: "insynth: " in editor.said() and "status 8: the start text is refused" in editor.said())
    editor.press(editor.rest)
    logged(editor, "insynthd: status 8 end 0 place 1 cause 11")
    write(editor.start, right)
    editor.restart()
    wait_for("the server's start", lambda: editor.messages("out"))
    assert menu_at_last(editor, line_of(USE, "first"))
    quit_editor_again(editor)


def quit_editor_again(editor):
    """Quits, where an earlier server has ended too."""
    editor.quit()
    wait_for("the editor's end", editor.ended, 20)
    codes = wait_for("the server's end", lambda: len(editor.messages("end")) == 2 and editor.messages("end"), 20)
    assert codes == [8, 0], f"the servers ended with {codes}"


def refused_setting(editor, path):
    """A setting that the server doesn't allow is said."""
    editor.options = {**OPTIONS, "depth": 4}
    editor.open(path, starts=False)
    editor.ask_at(line_of(USE, "first"))
    wait_for("a line that says why", lambda: editor.wrong_depth in editor.said())


def unbuilt_clone(editor):
    """A clone whose program isn't built, and a stand-in for the kit that proves nothing. The clone's program."""
    home = editor.own("clone")
    os.makedirs(os.path.join(home, "tools"))
    shutil.copytree(os.path.join(TOP, "examples"), os.path.join(home, "examples"))
    for name in ("insynthd", "crates.txt", "HANDLES", "tools/build"):
        shutil.copy2(os.path.join(TOP, name), os.path.join(home, name))
    for name in os.listdir(os.path.join(TOP, "crates")):
        os.makedirs(os.path.join(home, "crates", name))
    kit = editor.own("kit")
    os.mkdir(kit)
    path = write(os.path.join(kit, "rt"), STAND_IN.format(folder=kit, program=editor.program))
    os.chmod(path, os.stat(path).st_mode | stat.S_IXUSR)
    editor.environment["PATH"] = f"{kit}:{os.environ['PATH']}"
    editor.program = os.path.join(home, "insynthd")
    return kit


def shown_building(editor, path):
    """Opens a file and asks while the program is being built: the editor says that it waits, and its log how far it is."""
    editor.open(path, starts=False)
    editor.ask_at(line_of(USE, "first"))
    wait_for("a line that says so", lambda: "insynth: the server is still starting" in editor.shown())
    editor.press(editor.rest)
    logged(editor, r"insynthd: proves \d+ crates")


def not_built(editor, path):
    """The program isn't built: the log shows that it is being proved, and then there is a menu."""
    kit = unbuilt_clone(editor)
    shown_building(editor, path)
    write(os.path.join(kit, "go"), "")
    wait_for("the server's start", lambda: editor.messages("out"))
    assert menu_at_last(editor, line_of(USE, "first"))
    told = logged(editor, r"insynthd: \w+ is proved, (\d+) of \1 crates")
    editor.kill()
    return f"{told[1]} crates"


def left_building(editor, path):
    """Quits while the program is being built: nothing goes on for an editor that is gone."""
    kit = unbuilt_clone(editor)
    shown_building(editor, path)
    editor.quit()
    wait_for("the editor's end", editor.ended, 20)
    with open(os.path.join(kit, "begun"), encoding="utf-8") as source:
        numbers = source.read().split()
    wait_for("the end of the proofs", lambda: not any(os.path.exists(f"/proc/{it}") for it in numbers), 20)
    return f"{len(numbers)} proofs ended"


# ---- the page of set-ups

def section_of(page, title):
    return next(it for it in re.split(r"(?m)^## ", page) if it.startswith(title))


def blocks(section, language):
    return [text for kind, text in re.findall(r"(?ms)^```(\w*)\n(.*?)^```$", section) if kind == language]


def rows_of(picture):
    """The rows of a menu in a picture of a screen, as pairs of weight and expression."""
    found = []
    for line in picture.splitlines():
        if at := re.fullmatch(r"\s*(\d+)  (\S.*?)\s*", line):
            found.append((int(at[1]), at[2]))
        elif at := re.fullmatch(r"[~} ]*(\S.*?) +(\d+) *", line):
            found.append((int(at[2]), at[1]))
    return found


def documented(editor, jdk):
    """Runs the commands of the page as they stand there, in a copy of the clone below a new HOME, and asks where it says."""
    clone = os.path.join(editor.home, "insynthd")
    os.mkdir(clone)
    for name in ("docs", "editors", "examples", "tools"):
        shutil.copytree(os.path.join(TOP, name), os.path.join(clone, name))
    os.chmod(write(os.path.join(clone, "insynthd"), f'#!/bin/sh\nexec "{editor.program}" "$@"\n'), 0o755)
    with open(os.path.join(clone, "docs", "EDITORS.md"), encoding="utf-8") as source:
        page = source.read()
    editor.environment["PATH"] = f"{jdk}/bin:{os.environ['PATH']}"
    environment = {**{key: it for key, it in os.environ.items() if not key.startswith("XDG_")}, "HOME": editor.home, **editor.environment}
    before = "\n".join(blocks(section_of(page, "The class path"), "sh")[:1])
    done = subprocess.run(["bash", "-ec", before], cwd=clone, env=environment, stdout=subprocess.PIPE, text=True, check=True)
    assert done.stdout.splitlines() == ["5 x", "25 f(x)", "45 f(f(x))"], f"the first example gives {done.stdout!r}"
    section = section_of(page, editor.section)
    editor.open_by(f'cd "{clone}"\n' + blocks(section, "sh")[0])
    menu = menu_at_last(editor, 5, editor.at_end)
    editor.quit()
    wait_for("the editor's end", editor.ended, 20)
    return compare(menu, rows_of(blocks(section, "")[0]), jdk)


def compare(menu, picture, jdk):
    """Holds a menu to the picture of it, which was taken over a JDK 17."""
    assert picture, "the page has no picture of a menu"
    with open(os.path.join(jdk, "release"), encoding="utf-8") as source:
        if 'JAVA_VERSION="17.' not in source.read():
            return f"{len(menu)} expressions; the picture is of a JDK 17"
    assert menu[:len(picture)] == picture, f"the menu is {menu}, the page shows {picture}"
    return f"{len(menu)} expressions, the first {len(picture)} as the page shows them"
