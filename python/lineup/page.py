"""A page for the browser: one file that holds its pictures, its looks and its walker, and asks nothing of any other place."""
import base64
import hashlib
import json
import os

from lineup import outputs
from lineup.page_parts import text
from lineup.visible import visible

HERE = os.path.dirname(os.path.abspath(__file__))


def write(title, head, parts, foot, data=None):
    """The page of a head, of sections and of a foot; with data, the walker's."""
    script = beside("page.js")
    lines = ["<!doctype html>", '<html lang="en">', "<head>", '<meta charset="utf-8">', '<meta name="viewport" content="width=device-width, initial-scale=1">']
    lines += [f'<meta http-equiv="Content-Security-Policy" content="{policy(script)}">', f"<title>{text(title)}</title>", f"<style>\n{beside('page.css')}</style>", "</head>", "<body>"]
    if data:
        lines.append('<a class="skip" href="#walk">To the walker</a>')
    lines += ['<header><div class="wide">', *head, "</div></header>", '<main class="wide">', *parts, "</main>", '<footer class="wide">', *foot, "</footer>"]
    if data:
        lines.append(f'<script type="application/json" id="data">{held(data)}</script>')
    lines += [f"<script>{script}</script>", "</body>", "</html>"]
    return outputs.marked(visible("".join(f"{line}\n" for line in lines)), "<!-- {} -->")


def beside(name):
    with open(os.path.join(HERE, name), encoding="utf-8") as file:
        return file.read()


def policy(script):
    """Nothing is fetched from anywhere, and no other script runs, whatever a name says."""
    digest = base64.b64encode(hashlib.sha256(script.encode("utf-8")).digest()).decode()
    return f"default-src 'none'; style-src 'unsafe-inline'; script-src 'sha256-{digest}'; base-uri 'none'; form-action 'none'"


def held(data):
    """JSON that ends no script element: what HTML would read is written as escapes."""
    told = json.dumps(data, separators=(",", ":"))
    return told.replace("&", "\\u0026").replace("<", "\\u003c").replace(">", "\\u003e")
