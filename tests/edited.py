"""What a must-fail edit changes."""
import os


def changes(edit):
    """What an edit replaces: for each, its file, the text that stands there once, and the new text."""
    found, file, old = [], None, None
    with open(edit, encoding="utf-8") as lines:
        lines = [line.rstrip("\n") for line in lines if line.strip()]
    assert lines and lines[0].startswith("file: ") and any(it.startswith("old: ") for it in lines), f"{edit}: no edit"
    for line in lines:
        word, text = line[:5].strip(), line[5:]
        if line.startswith("file: "):
            file = line[6:]
        elif word == "old:":
            old = text
        else:
            assert word == "new:", f"{edit}: {line!r}"
            found.append((file, old, text))
    return found


def edited(edit, folder):
    """The texts of the files that an edit changes in a crate's folder, by their names."""
    texts = {}
    for file, old, new in changes(edit):
        with open(os.path.join(folder, file), encoding="utf-8") as source:
            text = texts.get(file) or source.read()
        assert text.count(old) == 1, f"{edit}: {old!r} stands {text.count(old)} times in {file}"
        texts[file] = text.replace(old, new)
    return texts
