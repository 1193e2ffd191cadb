"""The same as pages for a browser: a table of the causes and one of the cases, and for each cause the page of
tools/show for its shortest script, with the monitor's values beside the board's."""
import html
import pathlib
import shutil
import subprocess
import sys

from shared.board_texts import ROOT

from .report import Report, cases_named, right_by, script_texts
from .run import Found

STYLE = """body{font:14px/1.5 system-ui,sans-serif;max-width:70rem;margin:2rem auto;padding:0 1rem;color:#1c2024}
table{border-collapse:collapse;width:100%}
td,th{text-align:left;vertical-align:top;padding:.3rem .6rem;border-bottom:1px solid #ddd}
code,pre{font:12px/1.4
ui-monospace,monospace}.differ{color:#a40000}.left{color:#777}pre{margin:0;white-space:pre-wrap}"""


class PageFault(Exception):
    """A page could not be made."""


def page(title: str, body: str) -> str:
    return (
        f'<!DOCTYPE html>\n<html lang="en"><head><meta charset="utf-8"><title>{html.escape(title)}</title>'
        f"<style>{STYLE}</style></head><body><h1>{html.escape(title)}</h1>\n{body}</body></html>\n"
    )


def shown_page(found: Found, folder: pathlib.Path, number: int) -> str:
    """The name of the page of a cause's script; the script and the values stay beside it."""
    script, values = (folder / f"{number:02}.{kind}" for kind in ("script", "values"))
    texts = script_texts(found.shown)
    script.write_text(texts[0])
    values.write_text(texts[1])
    setup = found.shown.script.setup
    for image in filter(None, (setup.rom, setup.disk)):
        if not (folder / image.name).exists():
            shutil.copy(image, folder)
    beside = ["--beside", str(values)] if texts[1] else []
    words = [sys.executable, str(ROOT / "tools/show"), str(script), *beside]
    made = subprocess.run(words, capture_output=True, text=True)
    if made.returncode:
        raise PageFault(f"{script}: tools/show ended with {made.returncode}: {(made.stderr.strip().splitlines() or [''])[-1]}")
    name = f"{number:02}.html"
    (folder / name).write_text(made.stdout)
    return name


def cause_row(found: Found, report: Report, name: str) -> str:
    lines = "\n".join(
        [
            *found.shown.script.statements[:-1],
            f"{found.shown.script.statements[-1]} = "
            f"{found.shown.difference.given}, board {found.shown.difference.entry.value}",
        ]
    )
    known = " (known)" if found.cause.name in report.known else ""
    return (
        f'<tr><td><a href="{name}">{html.escape(found.cause.name)}</a>{known}<br>{html.escape(found.cause.what)}</td>'
        f'<td>{html.escape(right_by(found.cause))}</td>'
        f"<td><pre>{html.escape(lines)}</pre></td><td>{html.escape(cases_named(found))}</td></tr>\n"
    )


def case_rows(report: Report) -> str:
    rows = []
    for result in report.results:
        kind = {"agrees": "", "left out": "left"}.get(result.said, "differ")
        rows.append(
            f'<tr class="{kind}"><td>{html.escape(result.case.name)}</td><td>{html.escape(result.case.device)}</td>'
            f"<td>{html.escape(result.said)}</td><td>{html.escape(result.case.rule)}</td></tr>\n"
        )
    return "".join(rows)


def write_pages(report: Report, folder: pathlib.Path, title: str) -> None:
    """Writes index.html and a page a cause into a folder."""
    folder.mkdir(parents=True, exist_ok=True)
    causes = "".join(
        cause_row(found, report, shown_page(found, folder, number))
        for number, found in enumerate(report.in_order(), 1)
    )
    body = (
        f"<p>{html.escape(report.summary)}.</p>\n<h2>Causes</h2>\n<table><tr><th>Cause</th><th>Who is right</th>"
        f"<th>Shortest script</th><th>Cases</th></tr>\n{causes}</table>\n<h2>Cases</h2>\n<table><tr><th>Case</th>"
        f"<th>Device</th><th>Monitor</th><th>Rule</th></tr>\n{case_rows(report)}</table>\n"
    )
    (folder / "index.html").write_text(page(title, body))
