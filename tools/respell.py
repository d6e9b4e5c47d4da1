#!/usr/bin/env python3
"""Respells the repository's own definitions, lemmas and constructors as Rattle spells them: words in snake case, modules in camel case.

usage: tools/respell.py        once, at the top of the repository, right after the kit's port.py

What turns, as whole words, in every .antt, .rt and .edit file below crates/:
  - each word with a small first letter and a capital behind a small letter or a digit: `isDigit` is `is_digit`;
  - each constructor and field whose parts a dash joined: `true-word` is `true_word`;
  - the folder `machinery` of each specs/, and the files beside it: `Machinery`;
  - `json`, the crate, is `json_text`, since the kit has a library `json`.
Names that would fall together with another are in OTHER. Names of src/ are in snake case already and stay.
"""
import os
import re
import subprocess

# Names with hexadecimal digits that are part of no word.
KEEP = {'b0A', 'b0D', 'b2C', 'b7D', 'b5D', 'x0B', 'x01Aa', 'x01Aab', 'base_IsWord'}

# Before the words turn: names that a turned word would fall together with, a lemma beside a definition among them.
OTHER = {
    'each_row': 'each_row_lem',
    'goes_on': 'goes_on_lem',
    'held_by': 'held_by_lem',
    'in_rows': 'in_rows_lem',
    'is_digit': 'is_digit_lem',
    'next_place': 'next_place_lem',
    'next_row': 'next_row_lem',
    'row_from': 'row_from_lem',
    'laid-down': 'values_laid',
    # port.py took these for words behind the type `List`
    'end_List': 'end_list',
    'row_List': 'row_list',
    'on_List': 'on_list_lem',
    # the kit's Prelude has a word `count_by`
    'countBy': 'counted_by',
}

WORD = re.compile(r"(?<![\w'’⁺-])(?<!·)[A-Za-z][\w'-]*(?![·])")


def files(*endings):
    for folder, _, names in os.walk('crates'):
        if '/out' in folder or '/target' in folder:
            continue
        for name in names:
            if name.endswith(endings):
                yield os.path.join(folder, name)


def snake(word):
    return re.sub(r'([a-z0-9])([A-Z])', lambda m: m.group(1) + '_' + m.group(2).lower(), word).replace('most255', 'most_255')


def dashed_constructors():
    found = set()
    for path in files('.antt'):
        if path.endswith('/Proof.antt'):
            continue
        text = open(path).read()
        for block in re.finditer(r'^(?:pub )?(?:data|record) [^\n]*where\n((?:(?:[ \t]+[^\n]*|--[^\n]*)?\n)+)', text, re.M):
            for line in block.group(1).split('\n'):
                name = re.match(r'\s+(?:pub )?([^\s:(){}]+) :', line)
                if name and '-' in name.group(1):
                    found.add(name.group(1))
    return found - set(OTHER)


def main():
    dashed = dashed_constructors()

    def turned(match):
        word = match.group(0)
        if word in KEEP:
            return word
        if word in dashed:
            return word.replace('-', '_')
        if re.match(r'[a-z]', word) and re.search(r'[a-z0-9][A-Z]', word):
            return snake(word)
        return word

    def other(match):
        return OTHER.get(match.group(0), match.group(0))

    for path in files('.antt', '.rt', '.edit'):
        old = open(path).read()
        new = old
        # the lemmas that give way: not in code, and not where a name follows a dot (a step of a generated proof)
        if path.endswith('.antt') and not path.endswith('/Proof.antt') and '/specs/' not in path:
            new = re.sub(r'(?<!\.)' + WORD.pattern, other, new)
        else:
            new = re.sub(r'(?<![\w-])(end_List|row_List|countBy)(?![\w-])', lambda m: OTHER[m.group(0)], new)
        new = WORD.sub(turned, new)
        new = new.replace('specs.machinery.', 'specs.Machinery.').replace('pub mod machinery', 'pub mod Machinery')
        new = new.replace('file: specs/machinery/', 'file: specs/Machinery/')
        new = new.replace('Rattle.json.', 'Rattle.json_text.')
        if path.endswith('.rt'):
            new = re.sub(r'(?<![\w:])json::', 'json_text::', new)
        if new != old:
            open(path, 'w').write(new)
    moves = []
    for folder, folders, names in os.walk('crates'):
        if folder.endswith('/specs'):
            for name in ('machinery', 'machinery.antt'):
                if name in folders + names:
                    moves.append((os.path.join(folder, name), os.path.join(folder, 'M' + name[1:])))
    moves.append(('crates/json', 'crates/json_text'))
    for old, new in moves:
        subprocess.run(['git', 'mv', old, new], check=True)
    lines = open('crates.txt').read()
    open('crates.txt', 'w').write(re.sub(r'(?<![\w])json(?![\w])', 'json_text', lines))


if __name__ == '__main__':
    main()
