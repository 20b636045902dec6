#!/usr/bin/env python3
"""Writes type.index and type.dict beside this script: a small glossary of typography in dictd's form."""

import pathlib
import sys

sys.path.insert(0, str(pathlib.Path(__file__).resolve().parent.parent / "bench"))
from dictd import spelled

TITLE = "A small glossary of typography"

INFO = """A hundred terms of typesetting, written for dictcat as an example.
Headwords are UTF-8, some of them several words; some share one text.
.This line begins with a period, which a session doubles."""

# Headwords that share a text, and the text's lines after the first.
ENTRIES = [
    ("accent|diacritic", "a mark over, under or through a letter, as in é, ç and ø"),
    ("agate", "an old size of type, about five and a half points"),
    ("aldine leaf|fleuron|❦", "a leaf used as an ornament; the sign ❦ is one"),
    ("alignment", "how the lines of a text stand to its margins:\nflush left, flush right, centred or justified"),
    ("ampersand|&c", "the sign & for 'and', a ligature of e and t"),
    ("aperture", "the opening of a letter such as c or e"),
    ("apex", "the point where two strokes meet at the top, as in A"),
    ("arm", "a stroke that leaves a stem and is free at its end, as in E"),
    ("ascender", "the part of a letter that rises above the x-height, as in b and d"),
    ("asterism|⁂", "three asterisks in a triangle, which part two passages"),
    ("asterisk", "the sign *, which points to a note"),
    ("ball terminal", "a round end of a stroke, as at the top of an old a"),
    ("bar", "a level stroke that joins two others, as in H"),
    ("baseline", "the line on which letters stand"),
    ("baseline grid", "lines at one distance on which all texts of a page stand"),
    ("bastard title|half title", "a page with the bare title, before the title page"),
    ("blackletter|Fraktur|textura", "a family of broken letters, the first that was cast"),
    ("bleed", "what is printed past the edge where the page will be cut"),
    ("body", "the block of metal on which a letter stood,\nand since then the height that a size names"),
    ("bold", "a heavy cut of a face"),
    ("bowl", "a closed round part of a letter, as in b and o"),
    ("bracket", "1. a curve between a stem and its serif\n2. one of the signs ( ) [ ] { }"),
    ("bullet|•", "a dot that begins an item of a list"),
    ("cap height", "how high capitals stand over the baseline"),
    ("caret|‸", "the mark that shows where something is to be put in"),
    ("cast-off", "a reckoning of how many pages a text will fill"),
    ("cedilla|ç", "a hook under a letter, as in façade"),
    ("chase", "the frame in which type was locked for the press"),
    ("cicero", "a measure of twelve points of Didot's"),
    ("colophon", "a note at a book's end on how it was made"),
    ("composing stick", "the tray in which a line was set by hand"),
    ("contrast", "how much the thick strokes differ from the thin ones"),
    ("counter", "the white inside a letter"),
    ("crotch", "the inner corner where two strokes meet"),
    ("dagger|obelisk|†", "the sign †, the second mark of a note"),
    ("decimal tab", "a tab stop that puts numbers under one another by their periods:\n  1.5\n 10.25\n.75"),
    ("descender", "the part of a letter below the baseline, as in p and q"),
    ("diaeresis|tréma|naïve", "two dots that keep two vowels apart, as in naïve"),
    ("dingbat", "a sign that is no letter, such as a hand or a star"),
    ("drop cap", "a large first letter that reaches into the lines below"),
    ("ear", "the small stroke at the right of an old g"),
    ("ellipsis|…", "three periods that stand for what is left out:\n... and so on"),
    ("em", "a length as great as the size of the type"),
    ("em dash|—", "a dash one em long — as here"),
    ("en", "half an em"),
    ("en dash|–", "a dash one en long, between the ends of a range, as 1–9"),
    ("esperluette", "the French name of the ampersand"),
    ("eszett|ß", "the sharp s of German, as in Straße"),
    ("figure dash", "a dash as wide as a figure"),
    ("flush left", "set to the left margin, with a ragged right one"),
    ("folio", "1. a page's number\n2. a sheet folded once"),
    ("font|fount", "all the sorts of one face in one size"),
    ("full stop|period|.", "the sign that ends a sentence:\n."),
    ("galley", "the tray for lines that were set, and a proof taken from it"),
    ("glyph", "the form of a sign, as one face draws it"),
    ("guillemets|« »", "the quotes of French, « so », and of German, »so«"),
    ("gutter", "the white between two columns or two pages"),
    ("hair space", "the thinnest of the spaces"),
    ("hanging punctuation", "signs that stand past the margin, so that the edge looks even"),
    ("hyphen", "the sign - that joins two words or parts one at a line's end"),
    ("incipit", "the first words of a text, often set apart"),
    ("indent", "the white before the first line of a paragraph"),
    ("initial", "a large letter that begins a chapter"),
    ("interpunct|·", "a dot at half the height, which once parted words"),
    ("interrobang|‽", "one sign for ! and ? together"),
    ("italic", "a slanted face drawn after handwriting"),
    ("justification", "the spreading of a line from one margin to the other"),
    ("kerning", "the moving of two letters to or from each other, as in AV"),
    ("leader", "a row of periods that leads the eye:\nChapter one ........ 7\n.................. 12"),
    ("leading", "the white between lines, once strips of lead"),
    ("ligature|ﬁ", "two letters cast as one, as fi, fl and œ"),
    ("lining figures", "figures that are all as high as capitals"),
    ("long s|ſ", "the old form of s within a word, as in Congreſs"),
    ("lowercase|minuscule", "the small letters, kept in the lower case"),
    ("majuscule|uppercase", "the capitals, kept in the upper case"),
    ("manicule|☞", "a hand that points to a passage"),
    ("moiré", "a pattern where two screens lie over each other"),
    ("oldstyle figures", "figures that rise and sink as small letters do"),
    ("orphan", "a paragraph's first line alone at a page's foot"),
    ("Œuvre|œ", "a word that begins with the ligature of o and e"),
    ("pica", "a measure of twelve points"),
    ("pilcrow|¶", "the sign ¶ of a new paragraph"),
    ("pixel", "the smallest point of a screen"),
    ("point", "the smallest measure of type: 72 make an inch"),
    ("prime|′", "the sign of minutes and feet, which is no quote"),
    ("quad", "a blank of one em"),
    ("quotation marks", "the signs \"so\", 'so' and “so”; a \\ is none"),
    ("river", "white that runs down through the lines of a paragraph"),
    ("roff request", "a line of troff's that is an order and no text:\n.PP\n.sp 2\n..\n.\\\" a comment"),
    ("roman", "the upright face"),
    ("rule", "a line that is printed"),
    ("running head", "the line at the head of each page"),
    ("sans serif|grotesque", "a face without serifs"),
    ("section sign|§", "the sign § of a section"),
    ("serif", "the small stroke at the end of a stem"),
    ("small caps", "capitals as high as the x"),
    ("solidus|⁄", "the slanted stroke of a fraction, as in 1⁄2"),
    ("sort", "one piece of type"),
    ("stem", "the main upright stroke of a letter"),
    ("swash", "a letter with a flourish"),
    ("tilde|ñ|~", "a wave over a letter, as in señor"),
    ("tracking", "the white between all letters of a text"),
    ("umlaut|ü|Übersatz", "two dots that change a vowel, as in über"),
    ("versal", "a capital that begins a verse"),
    ("widow", "a paragraph's last line alone at a page's head"),
    ("x-height", "how high the x stands"),
    ("zero-width space", "a place where a line may be broken, and nothing to be seen"),
]


def main():
    here = pathlib.Path(__file__).resolve().parent
    text = b""
    lines = []

    def add(headwords, body):
        nonlocal text
        octets = body.encode()
        for headword in headwords:
            lines.append(f"{headword}\t{spelled(len(text))}\t{spelled(len(octets))}\n")
        text += octets

    add(["00-database-short"], f"00-database-short\n     {TITLE}\n")
    add(["00-database-info"], f"00-database-info\n{INFO}\n")
    add(["00-database-utf8"], "00-database-utf8\n")
    for names, body in ENTRIES:
        headwords = names.split("|")
        shown = "".join(line if line.startswith(".") else f"  {line}" for line in body.splitlines(True))
        add(headwords, f"{headwords[0]}\n{shown}\n")
    (here / "type.dict").write_bytes(text)
    (here / "type.index").write_bytes("".join(lines).encode())


main()
