"""What the extension for VS Code says of the debugger: how it is started, and what an editor may ask of it."""

LANGUAGES = ("lsl", "lsl-world")


def text(description, default):
    return {"type": "string", "description": description, "default": default}


PROPERTIES = {
    "program": text("A script or a world file.", "${file}"),
    "args": {
        "type": "array",
        "items": {"type": "string"},
        "description": "What happens to the script, in the words of 'lsl play'.",
        "default": [],
    },
    "cwd": text("The folder from which files are read.", "${workspaceFolder}"),
    "stopOnEntry": {"type": "boolean", "description": "Whether it stops at the first statement.", "default": True},
}


def launch(name, program, **more):
    return {"type": "lsl", "request": "launch", "name": name, "program": program, **more}


def snippet(label, description, body):
    return {"label": label, "description": description, "body": body}


def contributed():
    """Its parts of the extension's contributions."""
    touched = launch("Touch the script", '^"\\${file}"', args=["--touch", "Ann"])
    world = launch("Debug world", '^"\\${workspaceFolder}/${1:door.world}"')
    debugger = {
        "type": "lsl",
        "label": "LSL",
        "languages": [*LANGUAGES],
        "configurationAttributes": {"launch": {"required": ["program"], "properties": PROPERTIES}},
        "initialConfigurations": [launch("Debug script", "${file}", args=[])],
        "configurationSnippets": [
            snippet("LSL: debug a script", "Plays a script that someone touches", touched),
            snippet("LSL: debug a world", "Plays a world file", world),
        ],
    }
    return {"breakpoints": [{"language": "lsl"}], "debuggers": [debugger]}
