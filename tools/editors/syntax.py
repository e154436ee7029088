#!/usr/bin/env python3
"""The syntax files beside this one, for Vim and for VS Code (TextMate's form), from one table of the languages of models and texts.

    python3 tools/editors/syntax.py            fails where a file differs from the table, or the table's words from the manual's
    python3 tools/editors/syntax.py --write    writes the files anew

Vim:      cp -r tools/editors/vim/* ~/.vim/
VS Code:  cp -r tools/editors/vscode ~/.vscode/extensions/pbsolve"""
import json
import os
import re
import sys

HERE = os.path.dirname(os.path.abspath(__file__))
MANUAL = os.path.join(HERE, "..", "..", "docs", "MANUAL.md")
# Words: Vim's group, TextMate's scope, and the words.
WORDS = (
    ("Statement", "keyword.declaration", "sort struct pbes model state define step property init"),
    ("Keyword", "keyword.operator.quantifier", "mu nu forall exists val skip"),
    ("Special", "keyword.control.property", "no_deadlock always possibly inevitably until leads_to fair"),
    ("Type", "support.type", "Bool Pos Nat Int"),
    ("Boolean", "constant.language", "true false"),
    ("Operator", "keyword.operator.word", "div mod"),
    ("Function", "support.function", "if max min abs succ pred Pos2Nat Pos2Int Nat2Int"),
    ("Error", "invalid.illegal.reserved", "cons map var eqn glob lambda whr end in act proc"),
)
# Patterns: Vim's group, TextMate's scope, the pattern in Vim's form and in TextMate's. In Vim of two that begin at one place the last counts.
PATTERNS = (
    ("Number", "constant.numeric", r"\<\d\+\>", r"(?<![\w'])\d+(?![\w'])"),
    ("Operator", "keyword.operator", r":=\|->\|=>\|==\|!=\|<=\|>=\|&&\|||\|[-+*<>!]", r":=|->|=>|==|!=|<=|>=|&&|\|\||[-+*<>!]"),
    ("Comment", "comment.line.percentage", r"%.*$", r"%.*$"),
    ("PreProc", "meta.preprocessor.range", r"^%range\s.*$", r"^%range\s.*$"),
)
WHAT = "Models (.model) and texts of equations (.pbes) of pbsolve. Made by tools/editors/syntax.py."


def vim():
    """Vim's syntax file. A quote is part of a name."""
    yield f'" {WHAT}'
    yield 'if exists("b:current_syntax")\n  finish\nendif'
    yield "syntax iskeyword @,48-57,_,39"
    for group, _, words in WORDS:
        yield f"syntax keyword pbsolve{group} {words}"
    for group, _, pattern, _ in PATTERNS:
        yield f"syntax match pbsolve{group} /{pattern}/"
    for group in dict.fromkeys(row[0] for row in WORDS + PATTERNS):
        yield f"highlight default link pbsolve{group} {group}"
    yield 'let b:current_syntax = "pbsolve"'


def textmate():
    """TextMate's grammar. Of two patterns that match at one place the first counts."""
    rows = [{"name": f"{scope}.pbsolve", "match": pattern} for _, scope, _, pattern in reversed(PATTERNS)]
    rows[2:2] = [{"name": f"{scope}.pbsolve", "match": rf"(?<![\w'])(?:{'|'.join(words.split())})(?![\w'])"} for _, scope, words in WORDS]
    return {"name": "pbsolve", "comment": WHAT, "scopeName": "source.pbsolve", "fileTypes": ["model", "pbes"], "patterns": rows}


def package():
    """What VS Code asks of a folder with a grammar."""
    language = {"id": "pbsolve", "extensions": [".model", ".pbes"], "configuration": "./language.json"}
    grammar = {"language": "pbsolve", "scopeName": "source.pbsolve", "path": "./pbsolve.tmLanguage.json"}
    about = {"name": "pbsolve", "publisher": "pbsolve", "version": "1.0.0", "description": WHAT, "engines": {"vscode": "^1.50.0"}}
    return {**about, "contributes": {"languages": [language], "grammars": [grammar]}}


def files():
    """The files by their names, with what is to be in them."""
    brackets = [["(", ")"], ["[", "]"], ["<", ">"]]
    made = {
        "vscode/package.json": package(),
        "vscode/language.json": {"comments": {"lineComment": "%"}, "brackets": brackets[:2], "autoClosingPairs": brackets[:2]},
        "vscode/pbsolve.tmLanguage.json": textmate(),
    }
    yield "vim/syntax/pbsolve.vim", "\n".join(vim()) + "\n"
    yield "vim/ftdetect/pbsolve.vim", f'" {WHAT}\nautocmd BufRead,BufNewFile *.model,*.pbes setfiletype pbsolve\n'
    for name, value in made.items():
        yield name, json.dumps(value, indent=2) + "\n"


def words_wrong():
    """Where the manual has a reserved word that the table lacks, or a word for formulas, or the table one that the manual lacks."""
    with open(MANUAL, encoding="utf-8") as file:
        page = file.read()
    reserved = re.search(r"Reserved:\s+`([^`]*)`, and\s+`([^`]*)`", page)
    beside = re.search(r"reserved words of texts\]\(#grammar\) there are\s+`([^`]*)`", page)
    table = page[page.index("\n### Words\n"):].partition("\n\n")[2].partition("\n\n")[2].partition("\n\n")[0]
    patterns = re.findall(r"(?m)^\| `([^`]*)` \|", table)
    wanted = {*reserved[1].split(), *reserved[2].split(), *beside[1].split(), *(word for form in patterns for word in re.findall(r"[a-z_]{2,}", form))}
    told = {word for _, scope, words in WORDS if not scope.startswith("support.") for word in words.split()}
    yield from (f"tools/editors/syntax.py: its table and docs/MANUAL.md differ by {word}" for word in sorted(wanted ^ told))


def main():
    wrong = list(words_wrong())
    for name, text in files():
        path = os.path.join(HERE, name)
        if sys.argv[1:] == ["--write"]:
            os.makedirs(os.path.dirname(path), exist_ok=True)
            with open(path, "w", encoding="utf-8") as file:
                file.write(text)
        elif not os.path.exists(path) or open(path, encoding="utf-8").read() != text:
            wrong.append(f"tools/editors/{name} isn't that of the table: tools/editors/syntax.py --write")
    print("\n".join(wrong), end="\n" if wrong else "")
    sys.exit(1 if wrong else 0)


main()
