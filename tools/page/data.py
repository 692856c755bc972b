"""What a page shows of a run, as one value that JSON can write."""
from drawing import history, notes, picture, session

from . import states


def run_of(name, text, given):
    """A run: its entries, the states of its columns, its flow and its log."""
    script = session.Script(text)
    report = session.Report(given.report, script.greatest)
    recorder = states.Recorder(script)
    events = [recorder.step(entry) for entry in report.entries]
    for event in events:
        event.release = report.log.get(event.entry.place)
    history.compare(recorder.world, report)
    key = picture.key_of([events], script.greatest)
    return {
        "name": name, "comment": script.comment(), "form": script.form,
        "entries": [entry_of(event, recorder, script, key) for event in events],
        "columns": [column_of(at, column, recorder) for at, column in enumerate(recorder.world.columns) if column.ended != 0],
        "flows": [flow._asdict() for flow in session.flows_of(given.flow)],
        "log": [{"place": place, "text": release.text} for place, release in sorted(report.log.items())],
        "refused": None if given.line is None else {"line": given.line, "claimed": given.claimed, "right": given.right, "left": given.left},
    }, key


def entry_of(event, recorder, script, key):
    entry = event.entry
    return {
        "place": entry.place, "lane": entry.lane, "line": entry.line, "phase": script.phases[entry.line], "text": entry.text,
        "source": script.lines[entry.line - 1], "verb": entry.verb, "refusal": event.refusal, "moved": event.moved,
        "caller": recorder.ident(event.actor), "columns": [recorder.ident(column) for column in event.columns()],
        "label": None if entry.label is None else recorder.label(entry.label),
        "changes": [[recorder.ident(column), recorder.label(old), recorder.label(new), notes.shape_of(event, old, new)]
                    for column, old, new in event.changes],
        "log": None if event.release is None else event.release.text,
        "told": [text for text, _ in notes.lines(event, key)],
    }


def column_of(at, column, recorder):
    return {"id": at, "kind": column.kind, "name": column.name, "ident": column.ident(), "begun": column.begun,
            "states": recorder.states.get(at, [])}


def looks_of(keys):
    """The colour of each label, by its spelling; a hatch isn't shown on pages."""
    looks = {}
    for key in keys:
        for label in key.order:
            spelled = key.text(label) if label else "-"
            looks.setdefault(spelled, {"text": key.text(label), "colour": key.look(label)[0]})
    return looks


def page_of(runs, twin=None):
    """The whole value: one run, or the two of a pair with what `twin` says of them."""
    made = [run_of(*run) for run in runs]
    value = {"runs": [run for run, _ in made], "labels": looks_of([key for _, key in made]), "twin": None}
    if twin is not None:
        label, verdict = twin
        value["twin"] = {"label": label, "parts": verdict.parts, "shown": sorted(verdict.shown), "text": verdict.text}
    return value
