"""Looks at ladders as a headless browser lays them out: whether each text can be read and selected."""
import json
import re
import shutil
import subprocess
import tempfile
from html import unescape
from pathlib import Path

BROWSERS = ("chromium", "chromium-browser", "google-chrome")
PATIENCE = 120  # seconds
SCHEMES = {"light": 1, "dark": 0}  # as the browser numbers them
# What is wrong with the pictures of a page, and whether it is a dark one. Lengths are in pixels.
LOOK = """
const NEAR = 3, LEAST = 4.5;

function light(color) {
  const parts = color.match(/[\\d.]+/g).slice(0, 3).map(it => it / 255);
  const [r, g, b] = parts.map(it => it <= 0.04045 ? it / 12.92 : ((it + 0.055) / 1.055) ** 2.4);
  return 0.2126 * r + 0.7152 * g + 0.0722 * b;
}

function contrast(one, other) {
  const [less, more] = [light(one), light(other)].sort((a, b) => a - b);
  return (more + 0.05) / (less + 0.05);
}

const fill = it => getComputedStyle(it).fill;
const overlap = (a, b) => [Math.min(a.x + a.width, b.x + b.width) - Math.max(a.x, b.x),
                           Math.min(a.y + a.height, b.y + b.height) - Math.max(a.y, b.y)];

function look(svg) {
  const faults = [], page = svg.viewBox.baseVal;
  const texts = [...svg.querySelectorAll("text")].filter(it => it.textContent.trim());
  const boxes = texts.map(it => it.getBBox());
  const lines = [...svg.querySelectorAll("path.line, path.axis")].map(it => it.getBBox());
  const heads = [...svg.querySelectorAll("rect.head, rect.hub")].map(it => it.getBBox());
  const sheets = heads.concat([...svg.querySelectorAll("rect.note")].map(it => it.getBBox()));
  const inside = (a, b) => a.x >= b.x && a.y >= b.y - NEAR && a.x + a.width <= b.x + b.width && a.y + a.height <= b.y + b.height + NEAR;
  const say = (k, words) => faults.push(`"${texts[k].textContent.slice(0, 60)}" ${words}`);
  texts.forEach((text, k) => {
    const [wide, high] = overlap(boxes[k], page);
    if (wide < boxes[k].width - 1 || high < boxes[k].height - 1) say(k, "leaves the picture");
    for (let j = 0; j < k; j++) {
      const [wide, high] = overlap(boxes[k], boxes[j]);
      if (wide > 1 && high > NEAR) say(k, `overlaps "${texts[j].textContent.slice(0, 60)}"`);
    }
    const crossed = lines.some(it => it.x > boxes[k].x + 1 && it.x < boxes[k].x + boxes[k].width - 1 && overlap(boxes[k], it)[1] > NEAR);
    if (crossed && !sheets.some(it => inside(boxes[k], it))) say(k, "is crossed by a line");
    text.scrollIntoView({ block: "center", inline: "center" });
    const seen = text.getBoundingClientRect();
    const there = document.elementsFromPoint(seen.x + seen.width / 2, seen.y + seen.height / 2);
    if (there[0] !== text || getComputedStyle(text).userSelect === "none") say(k, "can't be selected");
    const behind = there.find(it => it.tagName === "rect");
    if (!behind || contrast(fill(text), fill(behind)) < LEAST) say(k, "stands out too little");
  });
  heads.forEach(head => texts.forEach((text, k) => {
    const [wide, high] = overlap(boxes[k], head);
    if (wide > 1 && high > NEAR && !inside(boxes[k], head)) say(k, "is wider than its head");
  }));
  const selected = getSelection();
  selected.selectAllChildren(svg);
  const words = selected.toString();
  texts.forEach((text, k) => { if (!words.includes(text.textContent.trim())) say(k, "isn't copied with the whole"); });
  return faults;
}

const found = [...document.querySelectorAll("section > svg")].map(look);
const told = { dark: matchMedia("(prefers-color-scheme: dark)").matches, found };
document.body.innerHTML = '<pre id="found"></pre>';
document.getElementById("found").textContent = JSON.stringify(told);
"""


def browser():
    """The browser of this machine, if there is one."""
    return next(filter(None, map(shutil.which, BROWSERS)), None)


def faults_of(pictures, scheme):
    """What is wrong with each of these pictures, each as a list of words; None where the browser doesn't say."""
    with tempfile.TemporaryDirectory(ignore_cleanup_errors=True) as work:
        page = Path(work, "page.html")
        sections = "".join(f"<section>{it}</section>" for it in pictures)
        page.write_text(f"<!doctype html><meta charset=utf-8><body>{sections}<script>{LOOK}</script>", encoding="utf-8")
        asked = [browser(), "--headless", "--no-sandbox", "--disable-gpu", f"--user-data-dir={work}/profile",
                 f"--blink-settings=preferredColorScheme={SCHEMES[scheme]}", "--dump-dom", page.as_uri()]
        try:
            told = subprocess.run(asked, capture_output=True, text=True, timeout=PATIENCE).stdout
        except subprocess.TimeoutExpired:
            return None
    found = re.search(r'<pre id="found">(.*?)</pre>', told, re.S)
    told = json.loads(unescape(found[1])) if found else {}
    return told["found"] if told.get("dark") == (scheme == "dark") else None
