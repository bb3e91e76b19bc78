#!/usr/bin/env python3
"""Opens pages that the program writes in headless Chromium, and reads them there as a person would: beside the gate, since no gate
needs a browser.

    tools/page_in_chromium.py [PROGRAM]                  looks at the pages, and says where their pictures lie
    tools/page_in_chromium.py --pictures FOLDER ..       leaves the pictures there
    tools/page_in_chromium.py --chromium CHROMIUM ..     by this browser, where it isn't `chromium`

Each page is that of a delivery by `validate --html`. In the browser it has to have the elements that html.parser finds in it, none
more, and to tell what `--json` says of the same files; what is folded is hidden until one clicks on it; nothing is fetched and
no script is run, whatever stands in the files. A picture is taken of each page, as wide as a screen and as a phone, light and
dark. The last line is 'page_in_chromium: N passed, M failed', and the status is 0 only if none failed.
"""
import argparse
import base64
import json
import os
import select
import shutil
import subprocess
import sys
import tempfile

TOOLS = os.path.dirname(os.path.abspath(__file__))
TOP = os.path.dirname(TOOLS)
sys.dont_write_bytecode = True
sys.path.insert(0, os.path.join(TOP, "tests"))
from delivery import FORMS, WORKSHOP, lines_of, text_of  # noqa: E402
from delivery_page import BAD, NAMES  # noqa: E402
from lib.harness import PROGRAM, Folder, Wrong  # noqa: E402
from lib.pages import expect_told, read, tree_of, wanted  # noqa: E402

SCREEN = {"width": 1280, "height": 900, "deviceScaleFactor": 1, "mobile": False}
PHONE = {"width": 390, "height": 844, "deviceScaleFactor": 2, "mobile": True}
PICTURES = [("screen-light", SCREEN, 1, "light"), ("screen-dark", SCREEN, 1, "dark"), ("phone-light", PHONE, 2, "light"), ("phone-dark", PHONE, 2, "dark")]

# how long the browser may take for an answer
SECONDS = 60


# ---- deliveries

def broken_files():
    folder = "example/assembly/broken"
    return {it: text_of(folder, it) for it in sorted(os.listdir(os.path.join(TOP, folder)))}


def hostile_files():
    """Files whose strings, comments and paths look like tags that fetch and run."""
    bad = [*BAD, "<img src=http://127.0.0.1/x>", "<link rel=stylesheet href=http://127.0.0.1/x>", "<iframe src=http://127.0.0.1/></iframe>",
           "<svg onload=alert(1)>", "<style>@import url(http://127.0.0.1/x)</style>", "<meta http-equiv=refresh content=0;url=http://127.0.0.1/>"]
    good = [it for it in bad if "*/" not in it]
    return {"<img src=x onerror=alert(1)>.step": lines_of("names", *(f"#{k}=S({k + 8},'{it}');" for k, it in enumerate(bad, 1))),
            "&lt;b&gt;\u202e'\".step": lines_of("names", *(f"#{k}=S({k + 8}/*{it}*/,'');" for k, it in enumerate(good, 1)))}


# Of each page a schema with its name, and the files.
DELIVERIES = {
    "example": ("PLATE", text_of("example/plate.exp"), {it: text_of("example", it) for it in ("plate.step", "blind.step")}),
    "kept": ("PLATE", text_of("example/plate.exp"), {"plate.step": text_of("example/plate.step")}),
    "broken": ("MECHANICAL_ASSEMBLY", text_of("example/assembly/assembly.exp"), broken_files()),
    "assembly": ("MECHANICAL_ASSEMBLY", text_of("example/assembly/assembly.exp"), {"part.step": text_of("example/assembly/part.step")}),
    "two-verdicts": ("WORKSHOP", WORKSHOP, {"deliveries/2026-11/pins.step": lines_of(
        "workshop", *(f"#{k}=PIN('{k}',1.,'lead');" for k in range(1, 71)), *(f"#{k}=PIN('{k}',1.,$);" for k in range(71, 200)))}),
    "many": ("FORMS", FORMS, {"a.step": lines_of("forms", *(f"#{k}=S(9,{k});" for k in range(1, 1001)))}),
    "hostile": ("NAMES", NAMES.replace("WORD", "<img src=x onerror=alert(1)>&amp;"), hostile_files()),
    "refused": ("PLATE", text_of("example/plate.exp"), {it: text_of("example", it) for it in ("plate.step", "torn.step")}),
}


def page_of(folder, name):
    """Writes the page of a delivery into the folder, and answers its path and the reply as JSON."""
    _, schema, files = DELIVERIES[name]
    with Folder() as place:
        for path, text in {"s.exp": schema, **files}.items():
            place.write(path, text)
        page = os.path.join(folder, f"{name}.html")
        _, out, error = place.run("validate", "--schema", "s.exp", "--json", "--html", page, *files)
    if error and not error.startswith(b'rp_server: "torn.step" is refused'):
        raise Wrong(f"the program says {error}")
    return page, json.loads(out)


# ---- the browser

class Browser:
    """Chromium without a window, which is spoken with over two pipes."""

    def __init__(self, path, folder):
        words = [path, "--headless=new", "--no-sandbox", "--disable-gpu", "--hide-scrollbars", "--no-first-run", "--remote-debugging-pipe",
                 f"--user-data-dir={folder}/profile", "about:blank"]
        ours, theirs = os.pipe(), os.pipe()
        os.set_inheritable(ours[0], True)
        os.set_inheritable(theirs[1], True)
        # (the browser reads descriptor 3 and writes 4)
        shell = ["/bin/sh", "-c", f'exec "$@" 3<&{ours[0]} 4>&{theirs[1]}', "sh", *words]
        self.process = subprocess.Popen(shell, pass_fds=(ours[0], theirs[1]), stdout=subprocess.DEVNULL, stderr=subprocess.DEVNULL)
        os.close(ours[0])
        os.close(theirs[1])
        self.to, self.back = ours[1], theirs[0]
        self.events, self.text, self.number, self.session = [], b"", 0, None
        target = self.ask("Target.createTarget", url="about:blank")["targetId"]
        self.session = self.ask("Target.attachToTarget", targetId=target, flatten=True)["sessionId"]

    def __enter__(self):
        return self

    def __exit__(self, *_):
        self.session = None
        try:
            self.ask("Browser.close")
        except (OSError, Wrong):
            self.process.kill()
        self.process.wait(SECONDS)

    def message(self):
        """The next message that comes."""
        while b"\0" not in self.text:
            ready, _, _ = select.select([self.back], [], [], SECONDS)
            piece = os.read(self.back, 1 << 20) if ready else b""
            if not piece:
                raise Wrong("the browser doesn't answer")
            self.text += piece
        line, _, self.text = self.text.partition(b"\0")
        return json.loads(line)

    def ask(self, method, **given):
        """What the browser answers; events that come before are kept."""
        self.number += 1
        asked = {"id": self.number, "method": method, "params": given, **({"sessionId": self.session} if self.session else {})}
        os.write(self.to, json.dumps(asked).encode() + b"\0")
        while True:
            it = self.message()
            if it.get("id") == self.number:
                if "error" in it:
                    raise Wrong(f"{method}: {it['error']}")
                return it["result"]
            self.events.append(it)

    def wait(self, method):
        """Waits for an event. A script that waits for a person is answered, and stays among the events."""
        while not any(it.get("method") == method for it in self.events):
            self.events.append(self.message())
            if self.events[-1].get("method") == "Page.javascriptDialogOpening":
                self.ask("Page.handleJavaScriptDialog", accept=True)

    def value(self, expression):
        """The value of an expression of the page. It isn't bound by what the page forbids itself."""
        told = self.ask("Runtime.evaluate", expression=expression, returnByValue=True)
        if "exceptionDetails" in told:
            raise Wrong(f"{expression}: {told['exceptionDetails']}")
        return told["result"].get("value")

    def open(self, path):
        """Opens a page. From here on its events are those that are kept."""
        for domain in ("Page", "Network", "Log", "Runtime"):
            self.ask(f"{domain}.enable")
        self.events = []
        self.ask("Page.navigate", url=f"file://{path}")
        self.wait("Page.loadEventFired")

    def picture(self, path, metrics, screens, scheme):
        """A picture of what is seen first, or of as many screens."""
        self.ask("Emulation.setDeviceMetricsOverride", **metrics)
        self.ask("Emulation.setEmulatedMedia", features=[{"name": "prefers-color-scheme", "value": scheme}])
        height = min(self.value("document.documentElement.scrollHeight"), screens * metrics["height"])
        clip = {"x": 0, "y": 0, "width": metrics["width"], "height": height, "scale": 1}
        taken = self.ask("Page.captureScreenshot", format="png", clip=clip, captureBeyondViewport=True)
        with open(path, "wb") as it:
            it.write(base64.b64decode(taken["data"]))


# ---- what is looked at

def shape(element):
    """An element with what stands in it, without the elements that a browser puts round the rows of a table."""
    children = []
    for it in element.children:
        inner = it.children if not isinstance(it, str) and it.tag == "tbody" else [it]
        for one in inner:
            if isinstance(one, str) and children and isinstance(children[-1], str):
                children[-1] += one
            else:
                children.append(one if isinstance(one, str) else shape(one))
    if element.tag == "pre" and isinstance(children[0], str):
        children[0] = children[0].removeprefix("\n")
    if element.tag in ("html", "head", "table"):
        children = [it for it in children if not isinstance(it, str)]
    return [element.tag, sorted(element.attributes.items()), children]


def expect_same(browser, text):
    """The browser has the elements that html.parser finds."""
    seen = tree_of("<!DOCTYPE html>" + browser.value("document.documentElement.outerHTML"))
    one, other = (shape(it) for it in (seen, tree_of(text)))
    # (a browser takes what stands behind the body into it)
    for it in (one, other):
        if isinstance(it[2][-1][2][-1], str):
            it[2][-1][2][-1] = it[2][-1][2][-1].rstrip()
    if one != other:
        raise Wrong(f"the browser has other elements: {str(one)[:600]} in place of {str(other)[:600]}")
    if browser.value("document.scripts.length + document.images.length + document.styleSheets.length") != 1:
        raise Wrong("there are scripts, images or styles in it")
    if browser.value("document.characterSet") != "UTF-8" or browser.value("document.compatMode") != "CSS1Compat":
        raise Wrong("it is read in another set of characters, or by rules of old pages")


def expect_quiet(browser, path):
    """Nothing was fetched but the page, no script was run, and the browser complains of nothing."""
    fetched = [it["params"]["request"]["url"] for it in browser.events if it.get("method") == "Network.requestWillBeSent"]
    if [it for it in fetched if not it.endswith(os.path.basename(path))] or len(fetched) != 1:
        raise Wrong(f"it fetched {fetched}")
    strange = [it for it in browser.events if it.get("method") in ("Log.entryAdded", "Runtime.consoleAPICalled", "Runtime.exceptionThrown",
                                                                   "Page.javascriptDialogOpening", "Page.frameAttached")]
    if strange:
        raise Wrong(f"the browser tells {strange}")


def expect_folded(browser):
    """Rows in `details` are hidden, and shown once its summary is clicked on; the page scrolls to no side."""
    hidden = "[...document.querySelectorAll('details :is(tr, li)')].filter(it => it.checkVisibility()).length"
    every = browser.value("document.querySelectorAll('details :is(tr, li)').length")
    if browser.value(hidden) != 0 or browser.value("document.querySelectorAll('details[open]').length") != 0:
        raise Wrong("something is unfolded")
    browser.value("document.querySelectorAll('summary').forEach(it => it.click())")
    if browser.value(hidden) != every:
        raise Wrong(f"{browser.value(hidden)} of {every} rows are seen once all is unfolded")
    browser.value("document.querySelectorAll('summary').forEach(it => it.click())")


def expect_narrow(browser):
    """Nothing stands beside what is seen."""
    for metrics in (SCREEN, PHONE):
        browser.ask("Emulation.setDeviceMetricsOverride", **metrics)
        wide = browser.value("document.documentElement.scrollWidth")
        if wide > metrics["width"]:
            raise Wrong(f"it is {wide} wide on a screen of {metrics['width']}")


def expect_links(browser):
    """Each link leads to the section that it names, which then stands on top or at the end of the page."""
    for number in range(browser.value("document.links.length")):
        browser.value(f"document.links[{number}].click()")
        seen = browser.value("document.querySelector(':target')?.id")
        asked = browser.value(f"document.links[{number}].hash")
        if f"#{seen}" != asked:
            raise Wrong(f"{asked} leads to {seen}")
        named = browser.value(f"[document.links[{number}].textContent, document.querySelector(':target h2').textContent]")
        if not named[1].endswith(f" {named[0]}"):
            raise Wrong(f"{named[0]!r} leads to {named[1]!r}")


def look_at(browser, folder, name):
    """Looks at the page of a delivery in the browser."""
    path, reply = page_of(folder, name)
    with open(path, encoding="utf-8") as it:
        text = it.read()
    browser.open(path)
    expect_quiet(browser, path)
    expect_same(browser, text)
    schema_name, schema, files = DELIVERIES[name]
    if "ok" in reply:
        seen = read("<!DOCTYPE html>" + browser.value("document.documentElement.outerHTML"))
        expect_told(seen, wanted(reply["ok"]["checks"], schema, schema_name, files))
    for picture, *how in PICTURES:
        browser.picture(os.path.join(folder, f"{name}-{picture}.png"), *how)
    expect_narrow(browser)
    expect_folded(browser)
    expect_links(browser)
    expect_quiet(browser, path)


def main(words):
    parser = argparse.ArgumentParser(prog="tools/page_in_chromium.py", allow_abbrev=False)
    parser.add_argument("program", nargs="?", default=PROGRAM, metavar="PROGRAM")
    parser.add_argument("--pictures", metavar="FOLDER")
    parser.add_argument("--chromium", default="chromium", metavar="CHROMIUM")
    given = parser.parse_args(words)
    Folder.program = os.path.abspath(given.program)
    if not os.access(Folder.program, os.X_OK):
        sys.exit(f"page_in_chromium: there is no program {Folder.program}: run rt ci first, or name it")
    path = shutil.which(given.chromium)
    if not path:
        sys.exit(f"page_in_chromium: there is no {given.chromium} here: apt-get install chromium, or name one by --chromium")
    folder = os.path.abspath(given.pictures) if given.pictures else tempfile.mkdtemp(prefix="pages-")
    os.makedirs(folder, exist_ok=True)
    failed = 0
    with tempfile.TemporaryDirectory() as profile, Browser(path, profile) as browser:
        for name in DELIVERIES:
            try:
                look_at(browser, folder, name)
            except Wrong as fault:
                print(f"{name}: FAILED: {fault}")
                failed += 1
    print(f"The pages and their pictures lie in {folder}.")
    print(f"page_in_chromium: {len(DELIVERIES) - failed} passed, {failed} failed")
    sys.exit(1 if failed else 0)


if __name__ == "__main__":
    main(sys.argv[1:])
