"""Headless Chromium, where it is installed: screenshots, measures and prints of a page."""
import json
import os
import re
import shutil
import struct
import subprocess
import tempfile
import zlib
from html import escape

PROGRAM = next(filter(None, map(shutil.which, ("chromium", "chromium-browser", "google-chrome", "google-chrome-stable"))), None)
SECONDS = 60
NARROWEST = 500         # Chromium's windows are at least so wide; a narrower page stands in a frame
TRIES = 2

# Measures the page as it comes and with its folds open. It stands in a copy of the page; the page itself has no script.
SCRIPT = """<script>
function box(element) {
  const b = element.getBoundingClientRect();
  return {text: element.textContent.trim().slice(0, 60), left: b.left, right: b.right, top: b.top, bottom: b.bottom};
}
function light(colour) {
  const part = colour.match(/[0-9.]+/g).map(Number).slice(0, 3).map(v => v / 255)
    .map(v => v <= .03928 ? v / 12.92 : ((v + .055) / 1.055) ** 2.4);
  return .2126 * part[0] + .7152 * part[1] + .0722 * part[2];
}
function contrast(element) {
  const style = getComputedStyle(element);
  const ink = light(element.closest('svg') ? style.fill : style.color);
  const paper = light(getComputedStyle(document.body).backgroundColor);
  return (Math.max(ink, paper) + .05) / (Math.min(ink, paper) + .05);
}
function measure() {
  const all = [...document.body.querySelectorAll('*')].filter(e => e.tagName != 'SCRIPT');
  return {
    width: window.innerWidth,
    scroll: document.documentElement.scrollWidth,
    cut: all.filter(e => !e.closest('svg') && e.scrollWidth > e.clientWidth + 1 && e.clientWidth > 0)
            .map(e => e.tagName + ' ' + e.textContent.trim().slice(0, 60)),
    blocks: all.filter(e => !e.closest('svg') && e.checkVisibility()).map(box),
    lines: [...document.querySelectorAll('svg')].map(
      s => ({box: box(s), texts: [...s.querySelectorAll('text')].map(box)})),
    contrasts: all.filter(e => e.checkVisibility() && ['text', 'P', 'DT', 'DD', 'H1', 'H2', 'LI', 'TD', 'TH'].includes(e.tagName)).map(contrast),
    hidden: [...document.querySelectorAll('details p')].map(e => !e.checkVisibility({contentVisibilityAuto: true})),
    size: parseFloat(getComputedStyle(document.querySelector('svg text')).fontSize)
          * document.querySelector('svg').getBoundingClientRect().width
          / document.querySelector('svg').viewBox.baseVal.width
  };
}
const closed = measure();
document.querySelectorAll('details').forEach(d => { d.open = true; });
const open = measure();
const told = document.createElement('pre');
told.id = 'measured';
told.textContent = JSON.stringify({closed: closed, open: open});
(window.parent === window ? document : parent.document).body.appendChild(told);
</script>
"""


def run(page, *options):
    """What Chromium prints for a page; it works in a folder of its own."""
    for remaining in range(TRIES - 1, -1, -1):
        folder = tempfile.mkdtemp(prefix="claimdesk-chromium-")
        try:
            command = [PROGRAM, "--headless", "--no-sandbox", "--disable-gpu", "--disable-dev-shm-usage", "--no-first-run",
                       "--disable-extensions", "--disable-background-networking", "--disable-breakpad", "--hide-scrollbars",
                       "--user-data-dir=" + os.path.join(folder, "profile"), *options, "file://" + page]
            environment = os.environ | {"HOME": folder, "XDG_CONFIG_HOME": folder, "XDG_CACHE_HOME": folder}
            return subprocess.run(command, stdin=subprocess.DEVNULL, stdout=subprocess.PIPE, stderr=subprocess.DEVNULL,
                                  env=environment, cwd=folder, timeout=SECONDS, check=True).stdout
        except (subprocess.TimeoutExpired, subprocess.CalledProcessError):
            if not remaining:
                raise
        finally:
            shutil.rmtree(folder, ignore_errors=True)


def measures(page, copy, width, *options):
    """The measures of a page in a window of this width."""
    with open(page, encoding="utf-8") as file:
        text = file.read()
    text = text.replace("</body>", SCRIPT + "</body>")
    if width < NARROWEST:
        text = '<!DOCTYPE html><body><iframe style="width:%dpx;height:1200px;border:0" srcdoc="%s"></iframe></body>' % (width, escape(text))
    with open(copy, "w", encoding="utf-8") as file:
        file.write(text)
    dom = run(copy, "--window-size=%d,1200" % max(width, NARROWEST), *options, "--dump-dom").decode("utf-8")
    told = re.findall(r'<pre id="measured">({.*?)</pre>', dom, re.S)[-1]
    for name, letter in (("lt", "<"), ("gt", ">"), ("amp", "&")):
        told = told.replace("&%s;" % name, letter)
    return json.loads(told)


def screenshot(page, target, width, height):
    """A picture of the page as its width, height and rows."""
    if width < NARROWEST:
        with open(page, encoding="utf-8") as file:
            framed = '<!DOCTYPE html><body style="margin:0"><iframe style="width:%dpx;height:%dpx;border:0" srcdoc="%s"></iframe></body>' % (
                width, height, escape(file.read()))
        page = target + ".html"
        with open(page, "w", encoding="utf-8") as file:
            file.write(framed)
    run(page, "--window-size=%d,%d" % (max(width, NARROWEST), height), "--screenshot=" + target)
    with open(target, "rb") as file:
        return decode(file.read())


def pages(page, target):
    """How many sheets the page is printed on."""
    run(page, "--no-pdf-header-footer", "--print-to-pdf=" + target)
    with open(target, "rb") as file:
        return len(re.findall(rb"/Type\s*/Page\b(?!s)", file.read()))


def decode(data):
    """Width, height and packed rows of a PNG with 8 bits a channel; a blank picture has next to no rows that differ."""
    place, packed = 8, b""
    while place < len(data):
        size, name = struct.unpack(">I4s", data[place:place + 8])
        body = data[place + 8:place + 8 + size]
        if name == b"IHDR":
            width, height, _, colour = struct.unpack(">IIBB", body[:10])
        elif name == b"IDAT":
            packed += body
        place += 12 + size
    row = 1 + width * {0: 1, 2: 3, 4: 2, 6: 4}[colour]
    raw = zlib.decompress(packed)
    return width, height, [raw[at:at + row] for at in range(0, height * row, row)]
