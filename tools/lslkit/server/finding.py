"""Definition, references and highlights of the name under the cursor."""

READ, WRITTEN = 2, 3


def meaning_at(document, params):
    spot = document.script.spot(document.lines.place(params["position"]))
    return (spot, document.script.meaning(spot)) if spot else (None, None)


def location(document, place):
    return {"uri": document.uri, "range": document.lines.range(place.start, place.end)}


def definition(document, params):
    _, meaning = meaning_at(document, params)
    found = document.script.declared(meaning) if meaning else None
    if not found:
        return None
    number, declared = found
    return location(document, document.script.place_of(number, declared.at, True, False))


def references(document, params):
    _, meaning = meaning_at(document, params)
    if not meaning:
        return None
    with_declaration = params.get("context", {}).get("includeDeclaration", True)
    found = document.script.places(meaning)
    return [location(document, it) for it in found if with_declaration or not it.is_declaration]


def highlights(document, params):
    _, meaning = meaning_at(document, params)
    if not meaning:
        return None
    found = document.script.places(meaning)
    return [
        {"range": document.lines.range(it.start, it.end), "kind": WRITTEN if it.is_written else READ} for it in found
    ]
