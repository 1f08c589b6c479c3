"""`vuyhanip page`: what is in a page, and what a browser shows of it."""
import base64
import hashlib
import html
import html.parser
import re
import subprocess
import unittest

from support.command import SERVICE, Command
from support.oids import oid
from support.tools import needs, skip_without

# What is done to a page, and what it shows then.
ACTIONS = """
<pre id="log"></pre>
<script>
const all = (it) => [...document.querySelectorAll(it)];
const told = (it) => it.textContent.replace(/^\\d+ */, "").replace(/^[▸▾]/, "");
const hover = (it) => it.dispatchEvent(new MouseEvent("mousemove", { bubbles: true }));
const log = (it) => { document.getElementById("log").append(it + "\\n"); };
const joined = (it) => all(it).map((one) => one.textContent).join(" ");
all("#tree .row.is-place").forEach((it) => log("place: " + data.place + " " + told(it)));
document.getElementById("tree").scrollTop = document.getElementById("octets").scrollTop = 0;
draw();
hover(all("#tree .row")[3]);
log("over: " + told(all("#tree .is-over")[0]));
log("octets: " + joined("#octets i.is-head[data-offset]") + " | " + joined("#octets i.is-inside[data-offset]"));
hover(all("#octets i[data-offset='0']")[0]);
hover(all("#octets i[data-offset='12']")[0]);
log("by octet: " + told(all("#tree .is-over")[0]));
document.getElementById("search").value = "ALERT(1)";
document.getElementById("search").dispatchEvent(new Event("input"));
log("found: " + document.getElementById("count").textContent + ": " + all("#tree .is-found").map(told));
document.getElementById("fold").click();
log("folded: " + all("#tree .row").length);
</script>
"""


def source(text):
    """What a policy has for a script or for looks (Content Security Policy, 6.7.3)."""
    return f"'sha256-{base64.b64encode(hashlib.sha256(text.encode()).digest()).decode()}'"


class Addresses(html.parser.HTMLParser):
    """What a page asks others for, and how many scripts it has."""

    def __init__(self):
        super().__init__()
        self.asked, self.scripts = [], 0

    def handle_starttag(self, tag, attrs):
        self.asked += [value for name, value in attrs if name in ("src", "href", "action", "data")]
        self.scripts += tag == "script"


class Page(Command):
    def page(self, name, *words, status=0):
        """The text of a page, with the status of what it shows."""
        ended, _, complaints = self.command("page", name, "-o", "page.html", "--overwrite", *words)
        self.assertEqual((ended, complaints), (status, ""))
        return self.octets("page.html").decode()

    def test_a_name_that_looks_like_a_place_of_the_page_is_shown_as_it_is(self):
        for name in ("{{data}}", "{{said}}", "{{title}}", "{{script}}"):
            text = self.page(self.put(name, self.octets("plain.p12")))
            self.assertIn(f"<title>{name}</title>", text)
            self.assertIn(f"<h1>{name}</h1>", text)
            self.assertEqual(text.count(base64.b64encode(self.octets("plain.p12")).decode()), 1)

    def test_its_policy_allows_its_own_script_and_looks_by_their_digests(self):
        text = self.page("store.p12")
        policy = re.search(r'content="([^"]*)"', text)[1]
        self.assertNotIn("unsafe", policy)
        for word in ("style", "script"):
            its = re.search(rf"<{word}>(.*?)</{word}>", text, re.S)[1]
            self.assertIn(f"{word}-src {source(its)}", policy)

    @needs("chromium")
    def test_no_other_script_is_run(self):
        text = self.page("store.p12")
        self.put("page.html", (text + '<script>document.title = "changed";</script>').encode())
        shown = self.dom()
        self.assertIn("data-ready=", shown)
        self.assertIn("<title>store.p12</title>", shown)

    def test_it_asks_no_server_and_escapes_strings(self):
        script = self.put("<script>.p12", self.octets("store.p12"))
        for name, status in (("store.p12", 0), ("broken.p7s", 1), (script, 0), ("stream.p7s", 3)):
            text = self.page(name, status=status)
            found = Addresses()
            found.feed(text)
            self.assertEqual((found.asked, found.scripts), ([], 2))
            self.assertNotIn("alert(1)</script>", text)
            self.assertNotRegex(text, r"url\(|@import|fetch\(|XMLHttpRequest|https?://")

    def opened(self, name, *words, status=0):
        """What chromium has of a page, with what the actions below it find."""
        skip_without("chromium")
        own = source(ACTIONS[ACTIONS.index("<script>") + len("<script>") : -len("</script>\n")])
        text = self.page(name, *words, status=status).replace("script-src ", f"script-src {own} ") + ACTIONS
        self.put("page.html", text.encode())
        return self.dom()

    def dom(self):
        """What chromium has of the page."""
        words = ["--headless=new", "--no-sandbox", "--disable-gpu", "--window-size=1400,800", "--dump-dom", "page.html"]
        ran = subprocess.run(["chromium", *words], capture_output=True, check=True, cwd=self.room, timeout=120)
        return html.unescape(ran.stdout.decode())

    @needs("chromium")
    def test_an_element_is_marked_in_the_tree_and_in_the_octets(self):
        shown = self.opened("store.p12")
        named = r"1\.2\.840\.113549\.1\.7\.1 \(pkcs7-data, RFC 5652\) -- \w*Pfx\.authSafe\.contentType"
        self.assertRegex(shown, rf"over: OBJECT IDENTIFIER 9: {named}\n")
        self.assertIn("octets: 06 09 | 2A 86 48 86 F7 0D 01 07 01\n", shown)
        self.assertRegex(shown, rf"by octet: OBJECT IDENTIFIER 9: {named}\n")
        self.assertRegex(shown, 'found: 1 of 1: BMPString 50: "<script>alert\\(1\\)</script>"( -- [^ ]+)?\n')
        self.assertRegex(shown, "folded: [0-9]\n")

    def test_the_place_is_in_view(self):
        name = oid("friendlyName")
        self.put("bad.p12", self.octets("plain.p12").replace(name + b"\x31", name + b"\x30"))
        place = int(re.search(r"refused: \w+ at (\d+)", self.command("check", "--kind", "pfx", "bad.p12")[1])[1])
        self.assertEqual(place, self.octets("bad.p12").index(name) + len(name))
        self.assertIn(f"place: {place} SEQUENCE", self.opened("bad.p12", "--kind", "pfx", status=1))

    @needs("chromium")
    def test_a_page_of_a_megabyte_opens_in_two_seconds(self):
        lines = (f"R\t301127110000Z\t261127110000Z\t{1 << 36 | it:X}\tunknown\t/CN={it}\n" for it in range(44_000))
        self.put("many.txt", "".join(lines).encode())
        self.put("many.cnf", SERVICE.replace("index.txt", "many.txt").encode())
        self.openssl("ca", "-config", "many.cnf", "-keyfile", "rsa.key", "-cert", "rsa.pem", "-gencrl", "-out", "many.pem")
        self.assertGreater(len(self.openssl("crl", "-in", "many.pem", "-outform", "DER")), 1 << 20)
        # up to the first of ten that does, since others may work on this machine too
        pages = (self.opened("many.pem") for _ in range(10))
        taken = (int(re.search(r'data-ready="(\d+)"', it)[1]) for it in pages)
        self.assertTrue(any(it < 2000 for it in taken))


if __name__ == "__main__":
    unittest.main()
