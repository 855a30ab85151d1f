"""The page of a run: one file with nothing from outside, clicked through in Chromium."""
from __future__ import annotations

import re
import shutil
from html.parser import HTMLParser

import pytest
from common import ROOT, SCENES, pack

import toralinge
from toralinge import Kind
from toralinge.__main__ import main
from toralinge.changes import Cause
from toralinge.page import ALL_RECORDS, page

SOME = [path for path in SCENES if path.parent.name == "examples" or path.stem in ("kinds", "refused", "empty", "cut-header-1", "first-no-setup")]
OVER = ROOT / "examples/over-voltage.hex"


class Reader(HTMLParser):
    """Checks that elements are closed in order, and collects names and addresses."""

    EMPTY = {"meta", "input", "br", "path", "use", "image", "rect", "line", "circle"}

    def __init__(self) -> None:
        super().__init__()
        self.open: list[str] = []
        self.ids: list[str] = []
        self.links: list[str] = []

    def handle_starttag(self, tag, attrs):  # type: ignore[no-untyped-def]
        given = dict(attrs)
        self.ids += [given["id"]] if "id" in given else []
        self.links += [value for name, value in attrs if name in ("href", "src", "xlink:href")]
        if tag not in self.EMPTY:
            self.open.append(tag)

    def handle_startendtag(self, tag, attrs):  # type: ignore[no-untyped-def]
        self.handle_starttag(tag, attrs)
        if tag not in self.EMPTY:
            self.open.pop()

    def handle_endtag(self, tag):  # type: ignore[no-untyped-def]
        if tag not in self.EMPTY:
            assert self.open.pop() == tag


@pytest.mark.parametrize("scene", SOME, ids=lambda path: path.stem)
def test_a_scene_has_a_page(scene):  # type: ignore[no-untyped-def]
    text = page(scene)
    reader = Reader()
    reader.feed(text)
    assert reader.open == [] and all(link.startswith("#") for link in reader.links)
    assert not re.search(r"(?:src|href|url\()\s*=?\s*[\"']?\s*(?:https?:)?//", text.replace('xmlns:xlink="http://www.w3.org/1999/xlink"', ""))
    run = toralinge.play(scene)
    assert [name for name in reader.ids if name.startswith("record-")] == [f"record-{at}" for at in range(len(run))]
    for change in toralinge.changes(scene):
        assert re.sub(r"[<>&\"']", "", change.sentence) in re.sub(r"&(?:lt|gt|amp|quot|#x27);", "", text)
    assert len(set(reader.ids)) == len(reader.ids)


def test_a_long_run_lists_what_is_near_a_change():  # type: ignore[no-untyped-def]
    boots = toralinge.record(Kind.BOOT, 1)
    stream = pack(4, 2, 1) + boots * ALL_RECORDS + toralinge.record(Kind.XREADY, 1) + boots * 10
    text = page(stream)
    listed = [int(number) for number in re.findall(r'<tr id="record-(\d+)"', text)]
    at = ALL_RECORDS + 2
    assert [change.record for change in toralinge.changes(stream)] == [1, at, at]
    assert listed == [0, 1, 2, 3, 4, *range(at - 3, at + 4), at + 10]
    assert f"records 5 to {at - 4:,}: nothing changed</td>" in text


def test_sentences_say_what_the_entries_show():  # type: ignore[no-untyped-def]
    said = [change.sentence for change in toralinge.changes(OVER)]
    assert said[0] == "record 1, BOOT: the chip woke"
    why = "the last 4 scans (records 9 to 12) each had a cell above 10,952; cell 5 at 10,953"
    assert f"record 12, SCAN: OV rose (over-voltage): {why}" in said and "record 12, SCAN: CHG went off (charge drive), by OV" in said
    assert "record 22, OUT: OV fell (over-voltage)" in said
    moved = [change.sentence for change in toralinge.changes(ROOT / "examples/sleep-and-wake.hex") if change.what == "setting"]
    assert moved[0] == "record 11, OUT: OV_TRIP went from 0xAC to 0x80: a cell above 10,248 is over"
    for scene in SCENES:
        run, changes = toralinge.play(scene), toralinge.changes(scene)
        assert [change.record for change in changes if change.what == "refused"] == [error.record for error in run.refusals]
        up: set[str] = set()
        for entry in run:
            for change in changes:
                if change.record == entry.record and change.what in ("bit", "alert", "drive"):
                    (up.add if change.now else up.discard)(change.name)
            shown = {bit.name for bit in toralinge.Stat if bit in entry.stat} | {pin.name for pin in toralinge.Pin if pin in entry.pins}
            assert up == shown, (scene, entry.record)


@pytest.fixture(scope="module")
def browser():  # type: ignore[no-untyped-def]
    from selenium import webdriver
    from selenium.webdriver.chrome.options import Options
    from selenium.webdriver.chrome.service import Service

    wanted = Options()
    wanted.binary_location = str(shutil.which("chromium"))
    for word in ("--headless=new", "--no-sandbox", "--disable-gpu", "--disable-dev-shm-usage", "--window-size=1500,1300"):
        wanted.add_argument(word)
    driver = webdriver.Chrome(service=Service(str(shutil.which("chromedriver"))), options=wanted)
    yield driver
    driver.quit()


def test_clicked_through_in_chromium(browser, tmp_path):  # type: ignore[no-untyped-def]
    from selenium.webdriver.common.by import By

    for scene, what in ((OVER, "drive"), (ROOT / "examples/season.hex", "refused"), (ROOT / "examples/pack-of-thirteen.hex", "bit")):
        path = tmp_path / f"{scene.stem}.html"
        assert main(["page", str(scene), "-o", str(path)]) == 0
        browser.get(f"file://{path}")
        changes = toralinge.changes(scene)
        items = browser.find_elements(By.CSS_SELECTOR, "ol.changes li")
        assert len(items) == len(changes)
        for change, item in zip(changes, items):
            assert change.sentence in item.text
            item.find_element(By.TAG_NAME, "a").click()
            picked = browser.find_elements(By.CSS_SELECTOR, "tr.picked")
            assert [row.get_attribute("id") for row in picked] == [f"record-{at}" for at in change.records]
            assert [one.get_attribute("id") for one in browser.find_elements(By.CSS_SELECTOR, "li.picked")] == [item.get_attribute("id")]
            box, row = browser.find_element(By.CSS_SELECTOR, ".records").rect, picked[0].rect
            assert box["y"] <= row["y"] and row["y"] + row["height"] <= box["y"] + box["height"] + 1
            drawn = browser.find_elements(By.CSS_SELECTOR, "path.here")
            assert len(drawn) == len(change.records) and all(line.is_displayed() or line.rect["height"] > 100 for line in drawn)
        box = browser.find_element(By.CSS_SELECTOR, f".filters input[value={what}]")
        box.click()
        assert all(item.is_displayed() != (change.what == what) for change, item in zip(changes, items))
        assert browser.find_element(By.CSS_SELECTOR, "table.season").is_displayed()
        assert browser.get_log("browser") == []
        assert browser.save_screenshot(str(tmp_path / "page.png")) and (tmp_path / "page.png").stat().st_size > 50_000


def test_a_change_leads_to_the_records_that_made_it(browser, tmp_path):  # type: ignore[no-untyped-def]
    """A click on the rise of OV, or on the drive that it put off, marks the four scans that made it due."""
    from selenium.webdriver.common.by import By

    page(OVER, tmp_path / "why.html")
    browser.get(f"file://{tmp_path}/why.html")
    for said in ("OV rose (over-voltage): the last 4 scans (records 9 to 12) each had a cell above 10,952; cell 5 at 10,953", "CHG went off (charge drive), by OV"):
        [item] = [one for one in browser.find_elements(By.CSS_SELECTOR, "ol.changes li") if said in one.text]
        assert item.text.endswith(f"record 12, SCAN: {said}")
        item.find_element(By.TAG_NAME, "a").click()
        assert [row.get_attribute("id") for row in browser.find_elements(By.CSS_SELECTOR, "tr.picked")] == [f"record-{at}" for at in (9, 10, 11, 12)]
        assert len(browser.find_elements(By.CSS_SELECTOR, "path.here")) == 4


def test_another_may_tell_the_cause():  # type: ignore[no-untyped-def]
    """Whoever knows better why a bit rose tells the end of the sentence and the records."""
    def why(entry, bit):  # type: ignore[no-untyped-def]
        return Cause("two scans", (11, entry.record)) if bit == toralinge.Stat.OV else None

    text = page(OVER, why=why)
    assert "record 12, SCAN: OV rose (over-voltage): two scans<" in text and 'class="bit" data-records="11 12"' in text


def test_the_line_in_the_picture_is_at_its_record(browser, tmp_path):  # type: ignore[no-untyped-def]
    """The line that a click draws stands where the picture has that record: at the block of OV in the over-voltage example."""
    from selenium.webdriver.common.by import By

    path = tmp_path / "over.html"
    page(OVER, path)
    browser.get(f"file://{path}")
    [item] = [one for one in browser.find_elements(By.CSS_SELECTOR, "ol.changes li") if "OV rose" in one.text]
    item.find_element(By.TAG_NAME, "a").click()
    place = "return Array.from(document.querySelectorAll(arguments[0])).pop().getBoundingClientRect().left"
    block, line = (browser.execute_script(place, where) for where in ("#row-OV", "path.here"))     # the last line: where OV rose
    step = float(browser.find_element(By.CSS_SELECTOR, ".picture").get_attribute("data-step"))
    assert abs(line - block) < 2 * step


def test_the_command_line(tmp_path, capsys, monkeypatch):  # type: ignore[no-untyped-def]
    assert main(["picture", str(OVER), "-o", str(tmp_path / "a.png")]) == 0
    assert main(["season-picture", str(OVER), "-o", str(tmp_path / "a.svg")]) == 0
    assert main(["seasons", str(OVER), "-o", str(tmp_path / "a.csv")]) == 0 and (tmp_path / "a.csv").read_text().startswith("pack,cell,scans")
    assert main(["seasons", str(OVER)]) == 0 and capsys.readouterr().out.count("\n") == 6
    assert main(["seasons", str(OVER), str(tmp_path / "none")]) == 1
    assert f"{tmp_path}/none: No such file or directory" in capsys.readouterr().err
    assert main(["seasons", "--joined", "pack", "--fleet", "threads", str(OVER), str(OVER)]) == 0
    assert "\npack,5,14," in capsys.readouterr().out
    assert main(["season-picture", str(ROOT / "tests/play/empty.hex"), "-o", str(tmp_path / "b.png")]) == 1
    assert "refused, 9: " in capsys.readouterr().err
    assert main(["page", str(tmp_path / "none"), "-o", str(tmp_path / "b.html")]) == 1
    for wrong in (["picture", str(OVER)], ["none"], []):
        with pytest.raises(SystemExit) as ended:
            main(wrong)
        assert ended.value.code == 2
