"""Code actions: the fixes of what is wrong in a range."""


def edits_of(document, edits):
    return [
        {"range": document.lines.range(start, end), "newText": new.decode("utf-8", "replace")}
        for start, end, new in edits
    ]


def actions(document, params, diagnosed):
    """The fixes of the diagnostics that touch a range. `diagnosed` are those of the document as it is."""
    start, end = (document.lines.place(params["range"][key]) for key in ("start", "end"))
    wanted = params.get("context", {}).get("only")
    if wanted and not any("quickfix".startswith(it) for it in wanted):
        return []
    found = []
    for it in diagnosed:
        if it.start <= end and start <= it.end:
            found += [action(document, it, fix) for fix in it.fixes]
    return found


def action(document, diagnostic, fix):
    return {
        "title": fix.title,
        "kind": "quickfix",
        "diagnostics": [as_message(document, diagnostic)],
        "isPreferred": len(diagnostic.fixes) == 1,
        "edit": {"changes": {document.uri: edits_of(document, fix.edits)}},
    }


def as_message(document, it):
    """A diagnostic as the protocol has it."""
    made = {
        "range": document.lines.range(it.start, it.end),
        "severity": 1 if it.severity == "error" else 2,
        "code": it.code,
        "source": "lsl",
        "message": "; ".join([it.words, *it.hints]),
    }
    if it.related:
        made["relatedInformation"] = [
            {
                "location": {"uri": document.uri, "range": document.lines.range(place.start, place.end)},
                "message": place.words,
            }
            for place in it.related
        ]
    return made
