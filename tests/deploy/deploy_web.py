"""Opens the page of `tfstatectl web` in a headless Chromium: the three views, with 200 workspaces
and with 4,096 instances, by keyboard, in both colour schemes, with texts that try to be more than
texts, and while the folder is compacted and its server restarted. With TFSTATED_PICTURES it saves a
picture of each view in that folder, the same in each run."""
import json
import os
import sys
import time
from pathlib import Path

import browser
from browser import Browser
from checking import S1, S2, checks_in, expect, run_checks
from deploy_nginx import ROOM, Nginx, make_secrets, replaced, signed, site
from folder_program import Serving
from folders import free_port, fresh, goes_on_alone, named
from journal_reader import push_content, record_text
from sample_states import resource, text_of
from team_folder import team_folder
from web_program import Web

WHO = {"ID": "x", "Who": "<img src=x onerror=alert(1)>\x1b[31m", "Operation": "OperationTypeApply", "Created": "2026-02-03T04:05:06Z"}
MODULES, RESOURCES, EACH = 16, 32, 8
# The width of the pictures in pixels, and the time at which they are made.
WIDTH, NOW = 1040, 1770091445
ODD = '"><script>alert(1)</script>'
# Returns each text of the page whose contrast with its background is below 4.5 (WCAG 2.2, 1.4.3).
CONTRAST = """
const parts = (text) => text.match(/[0-9.]+/g).map(Number);
const part = (value) => value / 255 <= 0.04045 ? value / 255 / 12.92 : ((value / 255 + 0.055) / 1.055) ** 2.4;
const light = ([r, g, b]) => 0.2126 * part(r) + 0.7152 * part(g) + 0.0722 * part(b);
const back = (one) => { for (; one; one = one.parentElement) { const found = parts(getComputedStyle(one).backgroundColor);
  if (found.length === 3 || found[3] > 0) return found; } return [255, 255, 255]; };
const bad = [];
for (const one of document.querySelectorAll('body *')) {
  const own = [...one.childNodes].some((node) => node.nodeType === 3 && node.data.trim());
  if (!own || !one.getClientRects().length || one.closest('svg') && one.tagName !== 'text') continue;
  const style = getComputedStyle(one);
  const box = one.tagName === 'text' ? parts(getComputedStyle(one.parentElement.querySelector('rect')).fill) : back(one);
  const [high, low] = [light(parts(one.tagName === 'text' ? style.fill : style.color)), light(box)].sort((a, b) => b - a);
  if ((high + 0.05) / (low + 0.05) < 4.5) bad.push([one.tagName, one.textContent.slice(0, 40), style.color, box]);
}
return bad;"""
# Returns each control of the page without a name.
NAMELESS = """
const name = (one) => one.getAttribute('aria-label') ?? one.labels?.[0]?.innerText ?? one.textContent;
return [...document.querySelectorAll('a,button,input,summary,select,[role=button],[tabindex="0"]')]
  .filter((one) => one.getClientRects().length && !name(one).trim()).map((one) => one.outerHTML.slice(0, 100));"""
SAME_HOST = "return performance.getEntriesByType('resource').every((one) => new URL(one.name).origin === location.origin)"


def push(name, text, identifier=b""):
    return record_text(3, name.encode(), push_content(identifier, text))


def lock(name, info):
    return record_text(1, name.encode(), json.dumps(info).encode())


def folder_of(*records):
    return fresh(n1=b"TFJ1\n" + b"".join(records))


def large():
    """Returns a state with 4,096 instances in 16 modules. Each resource depends on the previous one
    of its module, and the first of each module on the first of all."""
    def one(module, number):
        names = [f"module.m{module}.t.r{number - 1}"] if number else ["module.m0.t.r0"] if module else []
        instances = [{"index_key": f"{ODD}{key}", "dependencies": names} for key in range(EACH)]
        return resource(f"r{number}", instances, module=f"module.m{module}")
    return text_of([one(module, number) for module in range(MODULES) for number in range(RESOURCES)])


def address(web, place=""):
    return f"http://127.0.0.1:{web.port}/#/{place}"


def saved(window, name, last="main"):
    """Saves a picture of the page, down to the last line of an element."""
    if folder := os.environ.get("TFSTATED_PICTURES"):
        height = window.run("return Math.ceil(document.querySelector(arguments[0]).getBoundingClientRect().bottom) + 16", last)
        window.picture(Path(folder) / f"web-{name}.png", WIDTH, height)


def expect_access(window):
    """Checks contrast, names, the policy and hosts of the view that is shown."""
    for scheme in ("light", "dark"):
        window.prefer(scheme)
        expect(window.run(CONTRAST), [], f"contrast, {scheme}")
    window.prefer("light")
    expect((window.run(NAMELESS), window.run(SAME_HOST), window.complaints()), ([], True, []))
    expect(window.run("return document.querySelectorAll('main h1').length"), 1)


def reloaded(window):
    """Loads the page again. Returns the milliseconds until the graph was drawn."""
    window.run("window.isOld = true; location.reload()")
    return window.until(lambda: window.run("return window.isOld ? 0 : performance.getEntriesByName('graph')[0]?.startTime"))


def check_200_workspaces_are_sorted_searched_and_refreshed():
    names = [f"team-{number:03}" for number in range(200)]
    folder = folder_of(*(push(name, S1) for name in names), lock("team-007", WHO))
    server = Serving(folder).listens()
    with Web(folder) as web, Browser() as window:
        window.open(address(web))
        window.sees("200 of 200 workspaces")
        expect(window.texts("tbody th"), names)
        expect_access(window)
        window.click("thead th:nth-child(1) button")
        expect((window.texts("tbody th")[0], window.run("return document.querySelector('thead th').ariaSort")), ("team-199", "descending"))
        window.focus("#search")
        window.press("team-19")
        window.until(lambda: len(window.texts("tbody th")) == 10)
        window.run("window.stays = true")
        server.ask("POST", "/state/team-190", S2)
        window.until(lambda: window.run("return [...document.querySelectorAll('tbody tr')].at(-1).cells[1].innerText") == "2")
        server.kill()
        server = Serving(folder).listens()
        server.ask("POST", "/state/team-190", S2.replace(b"2 ", b"3 "))
        (folder / "compact").touch()
        goes_on_alone(folder, 2)
        window.until(lambda: window.run("return [...document.querySelectorAll('tbody tr')].at(-1).cells[1].innerText") == "3")
        expect((window.run("return window.stays"), window.focused()[2], window.complaints()), (True, "search", []), "without reloading")
    server.kill()


def check_a_workspace_with_texts_that_try_to_be_more():
    first = text_of([resource("a", [{"index_key": ODD}]), resource("b", [{}])], serial=1)
    second = text_of([resource("a", [{"index_key": ODD, "attributes": {"x": 1}}])], serial=2)
    folder = folder_of(push("-odd.name", first), lock("-odd.name", WHO), push("-odd.name", second, b"x"))
    (folder / f"{named(1)}.who").write_text("1 1 - %3Cb%3Eann\n")
    with Web(folder) as web, Browser() as window:
        window.open(address(web, "-odd.name"))
        window.sees("version 2")
        expect(window.text("h1"), "-odd.name")
        window.sees("<img src=x onerror=alert(1)>\\u{1b}[31m")
        expect(window.text("table[aria-label=Versions] tbody tr:last-child td:nth-child(5)"), "<b>ann", "the recorded user")
        window.click("tbody button")
        window.sees("removed t.b")
        window.sees(f"changed t.a[{json.dumps(ODD)}]")
        window.run("document.querySelector('details').open = true")
        window.sees("tfstatectl restore --position 3 -- /var/lib/tfstated/journal -odd.name")
        expect(window.run("return [document.querySelectorAll('main img').length, document.querySelectorAll('main script').length]"), [0, 0])
        expect_access(window)


def check_the_impact_in_4096_instances():
    with Web(folder_of(push("big", large()))) as web, Browser() as window:
        window.open(address(web, "big/impact"))
        window.sees("4,096 instances")
        window.focus("#address")
        window.press("m0.t.r0", "Down", "Down", "Enter")
        window.sees("are reached")
        expect("address=module.m0.t.r0" in window.run("return location.hash"), True)
        window.open(address(web, "big/impact?kind=any&address=module.m0.t.r0"))
        drawn = min(reloaded(window) for _ in range(3))
        print(f"    first picture of 4,096 instances after {drawn:.0f} ms", flush=True)
        expect(window.text("#answer"), f"{MODULES * RESOURCES * EACH - EACH:,} of 4,096 instances of version 7 are reached.")
        window.sees(f"{MODULES} nodes and {MODULES - 1} arrows for 4,096 instances")
        expect_access(window)
        window.focus("svg g[tabindex='0']")
        window.press("Enter")
        window.sees(f"{MODULES - 1 + RESOURCES} nodes")
        expect(window.focused()[0], "g", "the focus stays in the graph")
        window.press("Down", "Up", "Enter")
        window.sees(f"{MODULES - 2 + RESOURCES + EACH} nodes")
        expect_access(window)
        window.run("document.querySelector('main details').open = true")
        window.sees(f'module.m0.t.r1[{json.dumps(ODD + "0")}]')
        start = time.monotonic()
        for _ in range(20):
            window.press("+")
        expect(time.monotonic() - start < 10, True, "zooming stays fluid")
        window.click("#kind-all")
        window.until(lambda: "kind=all" in window.run("return location.hash"))
        window.click("#picked button")
        window.sees("Pick at least one")


def check_a_teams_folder_in_three_pictures():
    with Web(team_folder(NOW)) as web, Browser() as window:
        window.tell("Page.addScriptToEvaluateOnNewDocument", source=f"Date.now = () => {NOW * 1000}")
        window.resize(WIDTH, 900)
        window.open(address(web))
        window.sees("8 of 8 workspaces")
        row = "[...document.querySelectorAll('tbody tr')].find((one) => one.cells[0].innerText === 'shop.prod').cells[4].innerText"
        expect(window.run(f"return {row}.split('\\n')[0]"), "pipeline", "the recorded user, not the lock's")
        expect_access(window)
        saved(window, "workspaces")
        window.open(address(web, "shop.prod"))
        window.sees("version 4")
        window.click("tbody button")
        window.sees("changed module.database.aws_db_instance.main")
        expect_access(window)
        saved(window, "workspace", "main table")
        window.open(address(web, "shop.prod/impact?kind=any&address=module.network.aws_vpc.main"))
        window.sees("29 of 32 instances")
        expect_access(window)
        saved(window, "impact", ".graph")


def check_the_keyboard_reaches_each_control_in_order():
    with Web(folder_of(push("a", S1), push("b", S1))) as web, Browser() as window:
        window.open(address(web))
        window.sees("2 of 2 workspaces")
        window.focus(".skip")
        wanted = ["Skip to the content", "tfstated", "search", *["Name", "Serial", "Instances", "Bytes", "Last change", "Lock"], "a", "b"]
        found = []
        for number in range(len(wanted)):
            window.press(*["Tab"][:number])
            _, name, identifier = window.focused()
            found.append(identifier if identifier == "search" else name)
            expect(window.run("return getComputedStyle(document.activeElement).outlineStyle") != "none", True, f"focus is seen: {name}")
        expect(found, wanted)
        window.press("Enter")
        window.sees("version 1")
        expect(window.focused()[2], "view", "the new view has the focus")


def check_a_workspace_that_the_user_may_not_read_is_nowhere():
    access = fresh() / "access.conf"
    access.write_text('"~^ann:GET:team\\." 1;\n')
    folder = folder_of(push("team.a", S1), push("hidden", S1))
    with Web(folder, "--access", access) as web, Browser() as window:
        window.tell("Network.enable")
        window.tell("Network.setExtraHTTPHeaders", headers={"X-Remote-User": "ann"})
        window.open(address(web))
        window.sees("1 of 1 workspaces")
        expect("hidden" in window.run("return document.documentElement.outerHTML"), False)
        window.open(address(web, "hidden"))
        window.sees("There is no such workspace, or you may not read it.")


def check_nginx_shows_each_user_the_workspaces_of_its_line():
    make_secrets()
    path, port = fresh() / "web.sock", free_port()
    text = replaced(site(fresh() / "tfstated.sock", port), "http://unix:/run/tfstated/web.sock:/", f"http://unix:{path}:/")
    folder = folder_of(push("network.a", S1), push("other", S1))
    with Web(folder, "--access", ROOM / "access.conf", path=path), Nginx(text, port) as proxy:
        for user, names in (("admin", ["network.a", "other"]), ("auditor", ["network.a", "other"]), ("network-ci", ["network.a"]), ("stranger", [])):
            for forged in ({}, {"X-Remote-User": "admin"}):
                status, body = proxy.ask("GET", "/ui/api/workspaces", None, {**signed(user), **forged})
                expect((status, [row["workspace"]["name"] for row in json.loads(body)["workspaces"]]), (200, names), f"{user} {forged}")
        expect(proxy.ask("GET", "/ui/api/workspaces/other", None, signed("network-ci"))[0], 404)
        expect([proxy.ask("GET", target)[0] for target in ("/ui", "/ui/", "/ui/page.js", "/ui/none")], [301, 200, 200, 404])
        expect((proxy.ask("GET", "/ui/", None, {})[0], proxy.ask("POST", "/ui/api/workspaces", b"")[0]), (401, 403))
        expect(proxy.ask("GET", "/ui/", None, {**signed("admin"), "Origin": "https://evil.example"})[0], 403, "a page of another site")


if __name__ == "__main__":
    if browser.missing():
        sys.exit(f"not installed: {', '.join(browser.missing())}")
    sys.exit(run_checks(checks_in(globals())))
