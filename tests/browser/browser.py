"""Pages in a browser without a screen: chromium, which is started once for all of them."""

from __future__ import annotations

import html
import json
import re
import subprocess
import tempfile
from pathlib import Path

SECONDS = 120
CHROMIUM = ["chromium", "--headless", "--no-sandbox", "--disable-gpu", "--hide-scrollbars", "--disable-extensions"]

# Of each frame: how wide and how high its page is, the right end of the widest element, and the texts that are shown, by the class of their element.
MEASURE = """
<script>
window.onload = () => {
  const measured = [...document.querySelectorAll("iframe")].map(frame => {
    const page = frame.contentDocument, shown = [...page.body.querySelectorAll("*")];
    const texts = {};
    for (const element of shown) {
      if (element.className && element.getClientRects().length) (texts[element.className] ||= []).push(element.innerText);
    }
    return {
      window: frame.clientWidth,
      page: page.documentElement.scrollWidth,
      height: page.body.scrollHeight,
      right: Math.max(...shown.map(element => element.getBoundingClientRect().right)),
      left: Math.min(...shown.map(element => element.getBoundingClientRect().left)),
      text: page.body.innerText,
      texts,
    };
  });
  document.body.innerHTML = "";
  const result = document.createElement("pre");
  result.textContent = JSON.stringify(measured);
  document.body.append(result);
};
</script>
"""


def run(folder: str, *arguments: str) -> str:
    """What chromium prints; its files go to a folder."""
    command = [*CHROMIUM, f"--user-data-dir={folder}/profile", *arguments]
    return subprocess.run(command, stdout=subprocess.PIPE, stderr=subprocess.DEVNULL, text=True, check=True, timeout=SECONDS).stdout


def measured(pages: list[tuple[str, int]]) -> list[dict]:
    """What is shown of pages, each in a window of its width."""
    frames = "".join(
        f'<iframe style="border:0;width:{width}px;height:600px" srcdoc="{html.escape(page)}"></iframe>' for page, width in pages
    )
    with tempfile.TemporaryDirectory() as folder:
        outer = Path(folder, "outer.html")
        outer.write_text(f'<!DOCTYPE html><html><head><meta charset="utf-8">{MEASURE}</head><body>{frames}</body></html>')
        printed = run(folder, "--dump-dom", outer.as_uri())
    return json.loads(html.unescape(re.search(r"<pre>(.*)</pre>", printed, re.DOTALL)[1]))


def picture(page: str, width: int, path: Path) -> None:
    """Writes a picture of a whole page to a file."""
    height = measured([(page, width)])[0]["height"]
    with tempfile.TemporaryDirectory() as folder:
        shown = Path(folder, "page.html")
        shown.write_text(page)
        run(folder, f"--window-size={width},{height}", f"--screenshot={path.absolute()}", shown.as_uri())
