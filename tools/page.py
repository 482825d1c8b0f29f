"""Makes the HTML page of the outcomes: the picture, and beside it the history and the tree of the range that is pointed at."""

from __future__ import annotations

import html
import json
import re

from tools.naming import next_places, shown, what_happened
from tools.picture import Verdict, picture
from tools.program import Found

PAGE = """<!DOCTYPE html>
<html lang="en">
<meta charset="utf-8">
<title>@TITLE@</title>
<style>
body { font-family: sans-serif; margin: 1em; color: #111; background: #fff; }
#drawn { overflow-x: auto; }
.span { cursor: pointer; }
.span.on { stroke: #000; stroke-width: 2; }
#told { display: grid; grid-template-columns: 1fr 1fr; gap: 1em; }
#told pre { background: #f4f4f4; padding: .6em; overflow-x: auto; margin: 0; }
#name { font-weight: bold; }
.unfinished { color: #777; }
</style>
<p>Point at a range to see its history and its tree; click to hold it.</p>
<div id="drawn">
@PICTURE@</div>
<p><span id="name"></span> <span id="where"></span></p>
<div id="told"><div>history<pre id="history"></pre></div><div>tree<pre id="tree"></pre></div></div>
<div id="verdict"></div>
<script>
const outcomes = @OUTCOMES@;
const calls = @CALLS@;
let isHeld = false;
const part = name => document.getElementById(name);
function show(span) {
  const number = Number(span.dataset.outcome), outcome = outcomes[number];
  for (const it of document.querySelectorAll(".span.on")) it.classList.remove("on");
  span.classList.add("on");
  part("name").textContent = "outcome " + (number + 1) + ": " + outcome.name;
  part("where").textContent = span.dataset.steps ? "after " + span.dataset.steps + " steps, " + span.dataset.choice : "";
  part("history").textContent = calls.slice(0, outcome.returned).join("\\n");
  const next = document.createElement("span");
  next.className = "unfinished";
  next.textContent = outcome.next.map(it => "\\n" + it + "   (not returned)").join("");
  part("history").append(next);
  part("tree").textContent = outcome.tree.join("\\n");
  part("verdict").textContent = outcome.verdict;
}
for (const span of document.querySelectorAll(".span")) {
  span.addEventListener("mouseenter", () => { if (!isHeld) show(span); });
  span.addEventListener("click", event => { isHeld = true; show(span); event.stopPropagation(); });
}
document.addEventListener("click", () => { isHeld = false; });
const first = document.querySelector(".span");
if (first) show(first);
</script>
</html>
"""


def as_script(value: object) -> str:
    """Returns the value as it may stand in a script of a page."""
    return json.dumps(value, ensure_ascii=True).replace("<", "\\u003c")


def page(found: Found, title: str, verdicts: list[Verdict] | None) -> str:
    """Returns the page. It is one file, and asks nothing of the network."""
    outcomes, lines = [], found.whole.calls
    for number, (outcome, name) in enumerate(zip(found.outcomes, what_happened(found))):
        said = "" if verdicts is None else f"verdict: {verdicts[number].why}\n{verdicts[number].output[-2000:]}"
        tree = [shown(line, 400) for line in outcome.tree]
        begun = [shown(lines[place].rsplit(" = ", 1)[0], 400) for place in next_places(found, len(outcome.calls))]
        outcomes.append({"name": name, "returned": len(outcome.calls), "next": begun, "tree": tree, "verdict": said})
    parts = {
        "@TITLE@": html.escape(title),
        "@PICTURE@": picture(found, title, verdicts),
        "@OUTCOMES@": as_script(outcomes),
        "@CALLS@": as_script([shown(line, 400) for line in found.whole.calls]),
    }
    return re.sub("@[A-Z]+@", lambda mark: parts[mark[0]], PAGE)
