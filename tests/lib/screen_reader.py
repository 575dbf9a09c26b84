"""A page as a screen reader is given it, and used by that alone: by roles and names of the accessibility tree.

Nothing here looks into the page's elements: a part is found by its role and its name, and pressed where the browser
draws it, or reached by the keyboard.
"""
import contextlib
import json
import time

from lib.browser import Browser, Refused
from lib.places import LIB
from lib.sent import PATIENCE

TAB, ENTER, ESCAPE = "\ue004", "\ue007", "\ue00c"
# What a person may use. Each needs a name.
USABLE = {"button", "link", "textbox", "searchbox", "combobox", "Date", "InputTime", "checkbox", "radio", "spinbutton"}


# What the form for signing in and the page after it are called.
ENGLISH = {"login": "Name for signing in", "password": "Password", "button": "Sign in", "pages": "Pages"}

SCHEMES = ("light", "dark")
LOOKS = (LIB / "page_looks.js").read_text()


class Node:
    """A part of the tree: its role, its name, and the browser's number for it."""

    def __init__(self, part):
        self.role = part.get("role", {}).get("value")
        self.name = str(part.get("name", {}).get("value", ""))
        self.value = str(part.get("value", {}).get("value", ""))
        self.number = part.get("backendDOMNodeId")
        self.properties = {one["name"]: one["value"].get("value") for one in part.get("properties", [])}

    def __repr__(self):
        return f"{self.role} {self.name!r}"


class Reader:
    """A member's browser, in which a script may run before the page's own, and all that it was answered."""

    def __init__(self, driver, gateway, name, script="", form=ENGLISH):
        self.page, self.name, self.form = Browser(driver, logs=("performance", "browser")), name, form
        self.answers, self.asked, self.faults = [], {}, []
        self.root = f"https://{gateway.host}:{gateway.port}/"
        self.page.tool("Page.addScriptToEvaluateOnNewDocument", source=script)
        self.page.go(self.root)
        self.sign_in(name, gateway.passwords[name])

    def sign_in(self, login, password):
        self.write("textbox", self.form["login"], login)
        self.write("textbox", self.form["password"], password)
        # Bodies of what was answered before are gone on the next page, so they are noted first.
        self.listen()
        self.press("button", self.form["button"])
        self.wait_for("navigation", self.form["pages"])

    def resize(self, width, height=900, scheme="light"):
        """Draws the page in a window of this size, light or dark; a narrow one is a phone's."""
        self.page.tool("Emulation.setDeviceMetricsOverride", width=width, height=height, deviceScaleFactor=1, mobile=width < 500)
        self.page.tool("Emulation.setEmulatedMedia", features=[{"name": "prefers-color-scheme", "value": scheme}])

    # What is there.

    def tree(self):
        """The parts that are not passed over, in the order in which they are read."""
        nodes = {one["nodeId"]: one for one in self.page.tool("Accessibility.getFullAXTree")["nodes"]}
        found, todo = [], [one["nodeId"] for one in nodes.values() if "parentId" not in one]
        while todo:
            one = nodes.get(todo.pop())
            if one:
                found += [] if one.get("ignored") else [Node(one)]
                todo += reversed(one.get("childIds", []))
        return found

    def all(self, role, tree=None):
        return [node for node in tree or self.tree() if node.role == role]

    def find(self, role, name, tree=None):
        """The first part of a role and a name, or None; `*` at the end stands for any more letters."""
        for node in self.all(role, tree):
            if node.name == name or name.endswith("*") and node.name.startswith(name[:-1]):
                return node
        return None

    def wait_for(self, role, name):
        return self.wait(lambda: self.find(role, name), f"{role} {name}")

    def wait(self, holds, what):
        ends = time.monotonic() + PATIENCE
        while time.monotonic() < ends:
            found = holds()
            if found:
                return found
            time.sleep(0.2)
        raise TimeoutError(f"{self.name}: {what}: {self.text()}")

    def wait_for_text(self, text):
        """Waits until a text is read somewhere, and gives all that is read."""
        return self.wait(lambda: text in self.text() and self.text(), text)

    def text(self):
        """All that is read, one part after the other."""
        return " ".join(" ".join(node.name for node in self.all("StaticText")).split())

    def announced(self):
        """What the parts say that are announced without being asked."""
        return self.said_by([one["backendDOMNodeId"] for one in self.page.tool("Accessibility.getFullAXTree")["nodes"]
                             if one.get("role", {}).get("value") == "status"])

    def said(self, node):
        """What a part says, with all that is in it."""
        return self.said_by([node.number])

    def said_by(self, numbers):
        tree = self.page.tool("Accessibility.getFullAXTree")["nodes"]
        children = {one["nodeId"]: one.get("childIds", []) for one in tree}
        texts = {one["nodeId"]: one["name"]["value"] for one in tree if one.get("role", {}).get("value") == "StaticText"}
        todo = [one["nodeId"] for one in reversed(tree) if one.get("backendDOMNodeId") in numbers]
        found = []
        while todo:
            one = todo.pop()
            found += [texts[one]] if one in texts else []
            todo += reversed(children.get(one, []))
        return " ".join(found)

    def looks(self):
        """What is wrong with the page as it is drawn, and which parts have no name."""
        return self.page.run(LOOKS) + [str(node) for node in self.tree() if node.role in USABLE and not node.name.strip()]

    def looks_of(self, width):
        """What is wrong with the page, light and dark."""
        found = []
        for scheme in SCHEMES:
            self.resize(width, scheme=scheme)
            found += [f"{scheme}: {one}" for one in self.looks()]
        return found

    def box(self, node):
        """Where a part is drawn in the window: left, top, right and bottom; or None where it isn't."""
        quads = []
        with contextlib.suppress(Refused):
            quads = self.page.tool("DOM.getContentQuads", backendNodeId=node.number)["quads"]
        xs, ys = [x for quad in quads for x in quad[0::2]], [y for quad in quads for y in quad[1::2]]
        return (min(xs), min(ys), max(xs), max(ys)) if quads else None

    # What is done.

    def press(self, role, name):
        """Presses a part where it is drawn."""
        self.press_node(self.wait_for(role, name))

    def press_node(self, node):
        self.page.tool("DOM.scrollIntoViewIfNeeded", backendNodeId=node.number)
        left, top, right, bottom = self.box(node)
        x, y = (left + right) / 2, (top + bottom) / 2
        for kind in ("mousePressed", "mouseReleased"):
            self.page.tool("Input.dispatchMouseEvent", type=kind, x=x, y=y, button="left", clickCount=1)
        self.page.tool("Input.dispatchMouseEvent", type="mouseMoved", x=0, y=0)

    def go_to(self, link, heading=None):
        """Follows a link, and waits for the heading of what it leads to."""
        self.press("link", link)
        return self.wait_for("heading", heading or link)

    def write(self, role, name, text):
        """Puts a text in the place of what a field has."""
        node = self.wait_for(role, name)
        self.page.tool("DOM.focus", backendNodeId=node.number)
        self.select_all()
        self.page.tool("Input.insertText", text=text)

    def select_all(self):
        for kind in ("rawKeyDown", "keyUp"):
            self.page.tool("Input.dispatchKeyEvent", type=kind, key="a", code="KeyA", modifiers=2, windowsVirtualKeyCode=65,
                           commands=["selectAll"] if kind == "rawKeyDown" else [])

    def type(self, role, name, text):
        """Types into a part by keys alone."""
        node = self.wait_for(role, name)
        self.page.tool("DOM.focus", backendNodeId=node.number)
        self.page.keys(text)

    # The keyboard.

    def focused(self):
        """The part that has the keyboard."""
        found = [node for node in self.tree() if node.properties.get("focused") and node.role != "RootWebArea"]
        return found[-1] if found else None

    def tab_to(self, role, name, most=80):
        """Presses Tab until a part has the keyboard, and gives the parts on the way."""
        way = []
        for _ in range(most):
            self.page.keys([TAB])
            node = self.focused()
            way.append(node)
            if node and node.role == role and (node.name == name or name.endswith("*") and node.name.startswith(name[:-1])):
                return way
        raise TimeoutError(f"{self.name}: no way to {role} {name}: {way}")

    # What it was answered.

    def listen(self):
        """Notes the bodies of all answers that came, and what the console has of the page's own making."""
        for line in self.page.log("performance"):
            message = json.loads(line["message"])["message"]
            self.heard(message["method"], message.get("params", {}))
        self.faults += [line["message"] for line in self.page.log("browser") if line["source"] != "network"]

    def heard(self, method, words):
        if method == "Network.responseReceived":
            answer = words["response"]
            self.asked[words["requestId"]] = (answer["url"], answer["status"])
        if method == "Network.loadingFinished" and words["requestId"] in self.asked:
            url, status = self.asked.pop(words["requestId"])
            body = None
            try:
                body = self.page.tool("Network.getResponseBody", requestId=words["requestId"])["body"]
            except Refused:
                # Of a file of the page that was kept there is none. What the interface answers is never kept.
                if "/api/" in url:
                    raise
            self.answers.append((url, status, body or ""))

    def end(self):
        self.page.end()
